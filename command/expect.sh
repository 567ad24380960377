# What the tests of `judge` share: a command's exit status, standard output and standard error against what they should be.
# Sourced; $work is a folder of the caller's.
failures=0 tries=0

failed() {
    failures=$((failures + 1))
    printf 'FAILED: %s\n' "$*"
}

# The two texts are without their last newline; an empty one stands for nothing at all.
expect() { # STATUS OUT ERR COMMAND..
    status=$1 out=$2 err=$3
    shift 3
    tries=$((tries + 1))
    "$@" >"$work/out" 2>"$work/err"
    got=$?
    lines "$out" | cmp -s - "$work/out" && lines "$err" | cmp -s - "$work/err" && [ "$got" -eq "$status" ] && return
    failed "$*"
    printf 'exit %s, wanted %s\nprinted: %s\nwanted:  %s\nsaid:    %s\nwanted:  %s\n' "$got" "$status" "$(cat "$work/out")" "$out" "$(cat "$work/err")" "$err"
}

lines() { [ -z "$1" ] || printf '%s\n' "$1"; }

# A sample sheet that is accepted, and the words for it.
says() { # STATUS WORDS SHEET
    expect "$1" "$(crates/judge/out/judge <"sheets/$3.sheet" 2>/dev/null)" "judge: $2" ./judge "sheets/$3.sheet"
}

# One that is refused.
refused() { # NUMBER PLACE WORDS SHEET
    expect 2 "$1 $2" "judge: $3" ./judge "sheets/$4.sheet"
}

done_with() {
    [ "$failures" -eq 0 ] || {
        printf '%s: %s of %s FAILED\n' "$1" "$failures" "$tries"
        exit 1
    }
    printf '%s: %s calls as expected\n' "$1" "$tries"
}
