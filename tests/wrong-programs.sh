#!/usr/bin/env bash
# tests/wrong-programs itself: on a small repository, after `rt ci`, it tells a wrong program from one that is right, from one
# that only lacks a name or cannot be read, and from an edit that cannot be made; also where a crate has laws and no functions.
cd "$(dirname "$0")/.." || exit 1
. tests/check.bash
room=$(mktemp -d)
trap 'rm -rf "$room"' EXIT
mkdir -p "$room/tests" "$room/crates/laws/"{src,specs,wrong,must-fail} "$room/crates/bits/wrong"
cp tests/wrong-programs "$room/tests"
cp -r crates/bits/{src,specs,proofs,must-fail} "$room/crates/bits"
printf '// There is no code here.\n\n#![tactic(auto)]\n' >"$room/crates/laws/src/lib.rt"
cat >"$room/crates/laws/specs/Lib.antt" <<'END'
use Rattle.std.specs.Prelude.{◌≡◌, refl, ℕ, ◌+◌}

unfoldable pub twice : ℕ → ℕ
twice n = n + n

pub twice_four : twice 4 ≡ 8
unfolding twice
twice_four = refl
END
printf 'bits:\nlaws:\n' >"$room/crates.txt"
edit() { # CRATE/NAME FILE OLD NEW
    printf 'file: %s\nold: %s\nnew: %s\n' "$2" "$3" "$4" >"$room/crates/${1%/*}/wrong/${1#*/}.edit"
}
code() { edit "bits/$1" src/lib.rt "$2" "$3"; }
law() { edit "laws/$1" specs/Lib.antt "$2" "$3"; }
code wrong 'if x == x { f32::to_bits(x) } else { 2143289344 }' 'if x == x { f32::to_bits(x) } else { 2143289345 }'
code below '/ 8388608 == 255' '/ 8388608 == 254'
code right 'f32::from_bits(bits)' '(f32::from_bits(bits))'
code named 'result ≡ float_of bits' 'result ≡ float_of_nothing bits'
code twice 'bits' 'bytes'
law wrong 'n + n' 'n + 1'
law claimed '≡ 8' '≡ 9'
law right 'n + n' '(n + n)'
law named 'n + n' 'n + m'
law typed '= n + n' '= twice ≡ n'
law unread 'n + n' '(n + n'
cp "$room"/crates/laws/{wrong,must-fail}/named.edit

said() { grep -c "^$1" "$room/said"; }
told() { # WHAT CRATE/EDIT VERDICT [WHY]
    same "wrong programs: $1" 1 "$(said "$3 wrong program $2 ${4-is refused}\( (\|,\|:\)")"
}
(cd "$room" && rt ci) >"$room/ci" 2>&1
same "wrong programs: rt ci before it passes, with the edits in must-fail" "0 3 passed, 0 failed" "$? $(tail -n 1 "$room/ci")"
same "wrong programs: and it tells a bad one" 1 "$(grep -c '^rt: ok; .*must-fail edits: 1 refused, 1 bad' "$room/ci")"
(cd "$room" && exec tests/wrong-programs --after ci) >"$room/said"
same "wrong programs: one that is right makes it fail" 1 $?
told "what is wrong is told to be refused" bits/wrong ok
told "so is what is wrong in a function that another calls" bits/below ok
told "what is right is told not to be, though it calls what is wrong" bits/right "not ok" "is not refused"
told "a name that is missing is told" bits/named "not ok" "\(is refused for a name.*\|did not reach the prover.*\)"
told "a text that stands more than once is told" bits/twice "not ok" "is a bad edit"
told "a definition that a law does not hold of is told to be refused" laws/wrong ok
told "so is a law that claims something else" laws/claimed ok
told "a definition that is right is told not to be" laws/right "not ok" "is not refused"
told "a definition that lacks a name is told" laws/named "not ok" "is refused for a name.*"
told "a definition that has no meaning is told" laws/typed "not ok" "is refused for how it is written.*"
told "a definition that cannot be read is told" laws/unread "not ok" "is refused for how it is written.*"
same "wrong programs: of the edit in must-fail it tells that rt ci refused it for a fact" 1 "$(said 'ok must-fail bits/bits_of_a_nan was refused by rt ci for a fact$')"
same "wrong programs: of one that lacks a name it tells that" 1 "$(said 'not ok must-fail laws/named was not refused by rt ci: BAD EDIT: ')"
same "wrong programs: each edit has one line" 11 "$(said '\(ok\|not ok\) wrong program ')"
same "wrong programs: what the prover said of each is kept, and nothing else is written" "ci crates crates.txt said target tests: bits laws 10" \
    "$(ls "$room" | paste -sd' '): $(cd "$room/target/wrong" && echo $(ls) $(ls * | grep -c log))"
sed -i 's/twice 4 ≡ 8/twice 4 ≡ 9/' "$room/crates/laws/specs/Lib.antt"
(cd "$room" && tests/wrong-programs laws/claimed laws/right) >"$room/said"
same "wrong programs: where the crate is not proved as it is, that is told, and nothing is tried" "1 1 2" \
    "$? $(said 'not ok each crate, unchanged, is not proved') $(said 'not ok wrong program laws/.* was not tried')"
sed -i 's/twice 4 ≡ 9/twice 4 ≡ 8/' "$room/crates/laws/specs/Lib.antt"
rm "$room"/crates/bits/wrong/{below,right,named,twice}.edit "$room"/crates/laws/wrong/*
(cd "$room" && tests/wrong-programs) >"$room/said"
same "wrong programs: a wrong one alone ends well" "0 1" "$? $(said 'ok wrong program bits/wrong is refused')"
mkdir "$room/crates/bits/wrong/more"
edit bits/nan src/lib.rt '2143289344 }' '2143289346 }'
mv "$room"/crates/bits/wrong/{nan.edit,more}
(cd "$room" && tests/wrong-programs) >"$room/said"
same "wrong programs: what is in more is left out" "0 0" "$? $(said 'bits/nan')"
(cd "$room" && tests/wrong-programs --every) >"$room/said"
same "wrong programs: every one is tried where that is asked for" "0 2" "$? $(said 'ok wrong program bits/\(wrong\|nan\) is refused')"
