#!/usr/bin/env bash
# The library to link: its examples and tests in C and in Rust. They are x86-64; on another machine they run under an
# emulator.
cd "$(dirname "$0")/.." || exit 1
. tests/check.bash
room=$(mktemp -d) || exit 1
trap 'rm -rf "$room"' EXIT
unset MURZICANU_LIB MURZICANU_STRIP MURZICANU_LINES
machine=$(uname -m)
rm -rf target/library
if library/build >"$room/told" 2>"$room/said"; then
    echo "ok the library is proved, and its examples and tests are built"
else
    cat "$room/said"
    echo "not ok the library is proved, and its examples and tests are built"
    exit 1
fi
crates=$(. tools/proving.bash && crates_behind murzicanu)
count=$(echo "$crates" | wc -l)
same "library/build tells each crate that is proved, with the count" "$(echo "$crates" | sort)" \
    "$(sed -n "s/^proved [0-9]* of $count: //p" "$room/said" | sort)"
names="level-c test-c level-rust limit-rust test-rust test-crate"
same "library/build tells at its end where the archive and the programs are" \
    "The archive is $PWD/target/staticlib/libmurzicanu.a. The programs are in $PWD/target/library: $names" "$(tail -n 1 "$room/said")"
same "and there they are" "" "$([ -s target/staticlib/libmurzicanu.a ] || echo none; for name in $names; do [ -x "target/library/$name" ] || echo "$name"; done)"
same "and nothing of it is told on standard output" "" "$(cat "$room/told")"
library/build --run test-c
(cd examples && ../library/build --run test-c service.strip service.lines) >"$room/said" 2>&1
same "test-c takes a strip and its lines, from the folder it is called in" "0 0" "$? $(grep -c '^not ok' "$room/said")"
tr 0-4 5-9 <examples/service.lines >"$room/other.lines"
library/build --run test-c examples/service.strip "$room/other.lines" >"$room/said" 2>&1
same "and with other lines it fails" "1 1" "$? $(grep -c '^not ok' "$room/said")"
# The same service as a strip of version 2: the length 25, the version 2, and the threshold in two bytes.
{ printf '\x00\x19\x02\x00' && tail -c +4 examples/service.strip; } >"$room/two.strip"
library/build --run test-c "$room/two.strip" examples/service.lines >"$room/said" 2>&1
same "test-c takes a strip of version 2" "0 0" "$? $(grep -c '^not ok' "$room/said")"
# And with gaps, records of length 0, where nothing is being said: at the start, and two after every frame that is no speech. They
# change nothing, so that each has the figures of the line before it, and the first those of a new box, which its first frame leaves.
{
    head -c 27 "$room/two.strip" && printf '\0\0'
    while read -r number kind _; do
        tail -c "+$((22 * number + 6))" "$room/two.strip" | head -c 22
        [ "$kind" != N ] || printf '\0\0\0\0'
    done <examples/service.lines
} >"$room/gaps.strip"
awk 'NR == 1 { print ++n, "G", $3, $4, $5, $6 } { kind = $2; $1 = ++n; print }
    kind == "N" { $2 = "G"; for (i = 0; i < 2; i++) { $1 = ++n; print } }' examples/service.lines >"$room/gaps.lines"
same "a service with gaps in its pauses" "142 2451" "$(wc -l <"$room/gaps.lines" | tr -d ' ') $(wc -c <"$room/gaps.strip" | tr -d ' ')"
library/build --run test-c "$room/gaps.strip" "$room/gaps.lines" >"$room/said" 2>&1
same "test-c takes a strip with gaps, which change no other line" "0 0" "$? $(grep -c '^not ok' "$room/said")"

# The words are judged before anything is built: a script stands in for rt, in a copy where nothing is.
mkdir -p "$room/copy" "$room/bin"
cp -r library tools examples crates.txt "$room/copy"
mkdir -p "$room/copy/crates/murzicanu"
cat >"$room/bin/rt" <<END
#!/usr/bin/env bash
trap '' INT TERM
echo \$\$ >>"$room/asked"
echo "crate lists: modules loaded=0 checked=1"
echo "logic=proved functions=1"
echo "crate rounding: modules loaded=0 checked=1"
echo "logic=not-proved"
if [ -e "$room/hangs" ]; then
    sleep 1000 &
    echo \$! >>"$room/asked"
    wait
fi
exit 1
END
chmod +x "$room/bin/rt"
words() { # WORD..
    rm -f "$room/asked"
    PATH=$room/bin:$PATH "$room/copy/library/build" "$@" >"$room/said" 2>&1
    echo "$? $([ ! -e "$room/asked" ] || echo "rt was called")"
}
said() { tr '\n' ' ' <"$room/said" | sed 's/^library.build: //'; }
same "--run without a name says which there are" "2  --run wants the name of a program: $names " "$(words --run) $(said)"
same "so does --run with a name that is none" "2  there is no program 'level': $names " "$(words --run level) $(said)"
same "an example takes no words" "2  level-c takes no words " "$(words --run level-c loud) $(said)"
same "test-c takes two words or none" "2  test-c takes a strip and the lines that are due for it, or no words " "$(words --run test-c "$room/other.lines") $(said)"
same "a file that is missing is told" "2  there is no file '$room/none' to read " "$(words --run test-c "$room/other.lines" "$room/none") $(said)"
same "so is one that a variable names" "2  there is no file '$room/none' to read " "$(MURZICANU_STRIP=$room/none words --run test-rust) $(said)"
same "any other word shows how it is called" "2  yes" "$(words --help) $(grep -q 'library/build --run NAME' "$room/said" && echo yes)"
same "a library that is not proved is told, with the file that says why" "1 rt was called yes
proved 1 of $count: lists" "$(words) $(tail -n 1 "$room/said" | grep -q "not proved; $room/copy/target/library/log" && echo yes)
$(grep '^proved' "$room/said")"
: >"$room/hangs"
rm -f "$room/asked"
PATH=$room/bin:$PATH "$room/copy/library/build" >"$room/said" 2>&1 &
for _ in {1..200}; do
    if grep -q '^proved' "$room/said" && [ "$(wc -l <"$room/asked")" -eq 2 ]; then break; fi
    sleep 0.1
done
kill "$!"
wait "$!"
status=$?
left=$(while read -r process; do grep -qs '^State:[[:space:]]*[^Z[:space:]]' "/proc/$process/status" && echo "$process"; done <"$room/asked")
same "library/build that is ended leaves no prover running" "143, of 2:" "$status, of $(wc -l <"$room/asked"):$left"
[ -z "$left" ] || kill -KILL $left

# The header is for any C from C99 on and for C++, and asserts the layout in each.
compiler=$(command -v gcc || command -v x86_64-linux-gnu-gcc)
header() { # LANGUAGE STANDARD HEADER
    "$compiler" -std="$2" -Wall -Wextra -Werror -pedantic -fsyntax-only -include "$3" -x "$1" /dev/null >"$room/said" 2>&1
}
sed 's/uint32_t part;/uint64_t part;/' library/include/murzicanu.h >"$room/other.h"
for language in c c++; do
    echo | "$compiler" -fsyntax-only -x $language - 2>/dev/null || continue
    case $language in c) standards="c99 c11 c17" ;; *) standards="c++98 c++11 c++17" ;; esac
    for standard in $standards; do
        header $language $standard library/include/murzicanu.h
        same "the header is $standard" 0 "$?"
        header $language $standard "$room/other.h"
        same "and with a wider field it is refused in $standard for its layout" "1 yes" "$? $(grep -q envelope_size "$room/said" && echo yes)"
    done
done

# The check of the floats is the processor's work, whatever is optimised. gcc's -ffast-math, where it links a program, flushes
# the smallest numbers to zero before main.
case $machine in
x86_64) c=(gcc) run=() ;;
*) c=(x86_64-linux-gnu-gcc -static) run=(qemu-x86_64) ;;
esac
cat >"$room/ready.c" <<'END'
#include <stdio.h>
#include <xmmintrin.h>
#include "murzicanu.h"
int main(void) {
    static const unsigned registers[] = {0x1F80, 0x3F80, 0x5F80, 0x7F80, 0x9F80, 0x1FC0};
    unsigned kept = _mm_getcsr();
    int i, answers[6];
    printf("%d ", murzicanu_floats_ready());
    for (i = 0; i < 6; i++) {
        _mm_setcsr(registers[i]);
        answers[i] = murzicanu_floats_ready();
    }
    _mm_setcsr(kept);
    for (i = 0; i < 6; i++)
        printf("%d", answers[i]);
    return 0;
}
END
ready() { # LANGUAGE STANDARD OPTION..
    local language=$1 standard=$2
    shift 2
    "${c[@]}" -x "$language" -std="$standard" -Wall -Wextra -Werror -pedantic "$@" -I library/include -o "$room/ready" "$room/ready.c" &&
        "${run[@]}" "$room/ready"
}
for options in -O0 -O2 "-O3 -funroll-loops"; do
    same "the check of the floats knows each register with $options" "1 100000" "$(ready c c99 $options)"
done
for options in "-O3 -ffast-math" "-Ofast -fno-trapping-math"; do
    same "the check of the floats knows each register, and the start of a program, with $options" "0 100000" "$(ready c c99 $options)"
done
if echo | "${c[@]}" -fsyntax-only -x c++ - 2>/dev/null; then
    same "the check of the floats knows each register in C++ 98" "1 100000" "$(ready c++ c++98 -O2)"
fi

# Rust's own test runner prints a line for each test.
for tests in test-rust test-crate; do
    library/build --run $tests >"$room/rust" 2>&1
    status=$?
    sed -n 's/^test \(tests::\)\{0,1\}\(.*\) \.\.\. ok$/ok the library from Rust: \2/p; s/^test \(tests::\)\{0,1\}\(.*\) \.\.\. FAILED$/not ok the library from Rust: \2/p' "$room/rust" | tr _ ' '
    same "the library from Rust: $tests ends well" 0 "$status"
    [ "$status" = 0 ] || cat "$room/rust"
done
MURZICANU_LINES=$room/other.lines library/build --run test-rust a_service >"$room/rust" 2>&1
same "the library from Rust: with other lines, which a variable names, its service fails" "101 1" "$? $(grep -c '_due \.\.\. FAILED$' "$room/rust")"
MURZICANU_STRIP=$room/two.strip library/build --run test-rust a_service >"$room/rust" 2>&1
same "the library from Rust: the service as a strip of version 2" "0 1" "$? $(grep -c '_due \.\.\. ok$' "$room/rust")"
MURZICANU_STRIP=$room/gaps.strip MURZICANU_LINES=$room/gaps.lines library/build --run test-rust a_service >"$room/rust" 2>&1
same "the library from Rust: the service with gaps in its pauses" "0 1" "$? $(grep -c '_due \.\.\. ok$' "$room/rust")"

# The two examples of the whole box are the same service, so they tell the same gain.
library/build --run level-c >"$room/c"
same "the example in C ends well, after ten seconds of sound" "0 10" "$? $(wc -l <"$room/c" | tr -d ' ')"
library/build --run level-rust >"$room/rust"
same "the example in Rust ends well, after ten seconds of sound" "0 10" "$? $(wc -l <"$room/rust" | tr -d ' ')"
gains() { sed 's/.*gain \(-\{0,1\}[0-9.]*\) dB.*/\1/' "$1"; }
same "both tell the same gain each second" "$(gains "$room/c")" "$(gains "$room/rust")"
library/build --run limit-rust >"$room/limited"
same "the limiter's example leaves nothing below -32768 or above 32767, and reaches both" "0 10 -32768.0 32767.0" \
    "$? $(sed -n 's/.*out from *\([-0-9.]*\) to *\([-0-9.]*\),.*/\1 \2/p' "$room/limited" |
        awk 'NR == 1 { low = $1; high = $2 } $1 < low { low = $1 } $2 > high { high = $2 } END { print NR, low, high }')"
exported=$(sed -n 's/^pub extern "C" fn \([a-z_]*\).*/\1/p' crates/murzicanu/src/lib.rt | LC_ALL=C sort)
same "the header declares what the library exports, and nothing else" "$exported" \
    "$(sed -n 's/^uint32_t \(murzicanu_[a-z_]*\)(.*/\1/p' library/include/murzicanu.h | LC_ALL=C sort)"
# What the compiler has seen there: each function with its words, `extern` or `static`, before the name.
"$compiler" -std=c99 -fsyntax-only -aux-info "$room/seen" -include library/include/murzicanu.h -x c /dev/null
same "and one function of its own, the check of the floats" "$(echo "$exported" | sed 's/^/extern uint32_t /')
static int murzicanu_floats_ready" "$(sed -n 's|.*/murzicanu\.h:[0-9]*:[A-Z]* \*/ \([^(]*[a-z]\) (.*|\1|p' "$room/seen" | LC_ALL=C sort)"
same "the archive needs memset and memcpy at most" "" \
    "$(nm target/staticlib/libmurzicanu.a | sed -n 's/^ *U //p' | grep -vx 'memset\|memcpy')"
version=$(sed -n 's/^const VERSION: u32 = \([0-9]*\);/\1/p' crates/murzicanu/src/lib.rt)
same "the library, the header and the crate have one version" "$version $version" \
    "$(sed -n 's/^#define MURZICANU_VERSION \([0-9]*\)u$/\1/p' library/include/murzicanu.h) $(sed -n 's/^pub const VERSION: u32 = \([0-9]*\);/\1/p' library/rust/src/lib.rs)"
usual=$(sed -n 's/^const USUAL: u32 = \([0-9]*\);/\1/p' crates/saturation_protector_buffer/src/lib.rt)
same "the header and the crate have the usual capacity of a ring" "4 4 4" \
    "$usual $(sed -n 's/^#define MURZICANU_USUAL_RING \([0-9]*\)u$/\1/p' library/include/murzicanu.h) $(sed -n 's/^pub const USUAL_RING: u32 = \([0-9]*\);/\1/p' library/rust/src/lib.rs)"
for variable in MURZICANU_LIB MURZICANU_STRIP MURZICANU_LINES; do
    same "docs/EMBEDDING.md names $variable" yes "$(grep -q "\`$variable\`" docs/EMBEDDING.md && echo yes)"
done
if git rev-parse --is-inside-work-tree >/dev/null 2>&1; then
    same "git does not see what cargo leaves in the crate's folder" "library/rust/Cargo.lock library/rust/target/debug" \
        "$(git check-ignore library/rust/Cargo.lock library/rust/target/debug | tr '\n' ' ' | sed 's/ $//')"
fi

# What gcc and cargo make for this machine by themselves. The archive is for x86-64, so nothing else can link it.
if [ "$machine" != x86_64 ]; then
    echo "-- left out: programs that gcc and cargo link by themselves; this machine is $machine, and the archive for x86-64"
    exit 0
fi
cat >"$room/my.c" <<'END'
#include <stdio.h>
#include "murzicanu.h"
int main(void) {
    murzicanu_settings settings = MURZICANU_USUAL_SETTINGS;
    murzicanu_figures figures = {0.95f, -20.0f, -12.0f, -80.0f, -60.0f};
    murzicanu_chain chain;
    murzicanu_limiter limiter;
    murzicanu_answer answer;
    murzicanu_published now;
    float frame[480] = {0}, level;
    uint32_t refused = murzicanu_chain_new(&chain, &settings, 12, 480, MURZICANU_USUAL_RING);
    refused |= murzicanu_chain_step(&chain, &figures, frame, 480, 1, 480, &answer);
    refused |= murzicanu_chain_gap(&chain);
    refused |= murzicanu_chain_read(&chain, &now);
    refused |= murzicanu_limiter_new(&limiter, 480);
    refused |= murzicanu_limiter_step(&limiter, frame, 480, 1, 480);
    refused |= murzicanu_limiter_read(&limiter, &level);
    printf("version %u, refused with %u", murzicanu_version(), refused);
    return 0;
}
END
line=$(sed -n 's/^    \(gcc .*my\.c.*\)$/\1/p' docs/EMBEDDING.md)
same "the line for gcc in docs/EMBEDDING.md links all eight functions, and no other library" "version $version, refused with 0 no -l" \
    "$(${line/my.c/$room/my.c} -o "$room/my" && "$room/my") $(case "$line " in *" -l"*) ;; *) echo "no -l" ;; esac)"

if ! cargo --version >/dev/null 2>&1; then
    echo "-- left out: the crate with cargo, which is not here"
    exit 0
fi
export CARGO_TARGET_DIR=$room/cargo
(cd library/rust && cargo test --offline) >"$room/said" 2>&1
same "cargo test passes by itself: the crate's own tests, those of the box, and the example in the documentation" "0 3 0 1 1" \
    "$? $(grep -c '^test result: ok' "$room/said") $(grep -c 'FAILED\|ignored$' "$room/said") $(grep -c '^test a_service_has_the_lines_that_are_due \.\.\. ok' "$room/said") $(grep -c '^test src/lib.rs - .* ok' "$room/said")"
grep -q '^error' "$room/said" && cat "$room/said"

# Another archive with the same functions, of version 99, in the place of the one that was linked before.
cat >"$room/other.c" <<'END'
#include "murzicanu.h"
uint32_t murzicanu_version(void) { return 99; }
uint32_t murzicanu_chain_new(murzicanu_chain *a, const murzicanu_settings *b, uint32_t c, size_t d,
                             uint32_t e) { return !a + !b + !c + !d + !e; }
uint32_t murzicanu_chain_step(murzicanu_chain *a, const murzicanu_figures *b, float *c, size_t d, size_t e, size_t f,
                              murzicanu_answer *g) { return !a + !b + !c + !d + !e + !f + !g; }
uint32_t murzicanu_chain_gap(murzicanu_chain *a) { return !a; }
uint32_t murzicanu_chain_read(const murzicanu_chain *a, murzicanu_published *b) { return !a + !b; }
uint32_t murzicanu_limiter_new(murzicanu_limiter *a, size_t b) { return !a + !b; }
uint32_t murzicanu_limiter_step(murzicanu_limiter *a, float *b, size_t c, size_t d, size_t e) { return !a + !b + !c + !d + !e; }
uint32_t murzicanu_limiter_read(const murzicanu_limiter *a, float *b) { return !a + !b; }
END
gcc -Wall -Wextra -Werror -I library/include -c -o "$room/other.o" "$room/other.c" && ar rcs "$room/other.a" "$room/other.o"
mkdir -p "$room/app/src" "$room/archive"
cat >"$room/app/Cargo.toml" <<END
[package]
name = "app"
version = "0.1.0"
edition = "2021"

[dependencies]
murzicanu = { path = "$PWD/library/rust" }

[workspace]
END
cat >"$room/app/src/main.rs" <<'END'
use murzicanu::{Limiter, Refusal};
use std::arch::asm;

fn told(made: Result<Limiter, Refusal>) -> String {
    made.map_or_else(|refusal| format!("{refusal:?}"), |_| String::from("made"))
}

fn main() {
    let first = told(Limiter::new(480));
    unsafe { asm!("ldmxcsr [{}]", in(reg) &0x9F80_u32 as *const u32) };
    let second = Limiter::new(480);
    unsafe { asm!("ldmxcsr [{}]", in(reg) &0x1F80_u32 as *const u32) };
    println!("{first}; flushing to zero: {}", told(second));
}
END
app() { (cd "$room/app" && MURZICANU_LIB=$room/archive cargo run --quiet --offline 2>&1); }
cp target/staticlib/libmurzicanu.a "$room/archive"
same "cargo links the archive that MURZICANU_LIB names" "made; flushing to zero: Floats" "$(app)"
cp "$room/other.a" "$room/archive/libmurzicanu.a"
same "cargo links an archive anew that was replaced; its version is told before the floats" "Version(99); flushing to zero: Version(99)" "$(app)"
cp target/staticlib/libmurzicanu.a "$room/archive"
same "and the first one, put back" "made; flushing to zero: Floats" "$(app)"
rm "$room/archive/libmurzicanu.a"
same "an archive that is missing where MURZICANU_LIB says is told, with what to run" \
    "There is no $room/archive/libmurzicanu.a. MURZICANU_LIB has to name the folder of libmurzicanu.a, which library/build makes." \
    "$(app | sed -n 's/^ *\(There is no .*\|MURZICANU_LIB has .*\)$/\1/p' | tr '\n' ' ' | sed 's/ $//')"
(cd "$room/copy/library/rust" && cargo build --offline) >"$room/said" 2>&1
same "one that is missing where library/build puts it too" \
    "101 There is no $room/copy/library/rust/../../target/staticlib/libmurzicanu.a. Run library/build, which makes it, or let MURZICANU_LIB name the folder that has it." \
    "$? $(sed -n 's/^ *\(There is no .*\|Run library.build.*\)$/\1/p' "$room/said" | tr '\n' ' ' | sed 's/ $//')"
