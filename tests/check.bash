# What the tests share: each of them starts with `. tests/check.bash` in the root of the repository.

# Prints ok or not ok, with what was got where it is not what was due.
same() { # NAME DUE GOT
    if [ "$2" = "$3" ]; then
        echo "ok $1"
    else
        echo "not ok $1"
        echo "  due: $(printf '%s' "$2" | head -c 300)"
        echo "  got: $(printf '%s' "$3" | head -c 300)"
    fi
}

# The same for two files.
same_file() { # NAME DUE GOT
    if cmp "$2" "$3" >&2; then echo "ok $1"; else echo "not ok $1"; fi
}

replay() { tests/run-program replay; }
