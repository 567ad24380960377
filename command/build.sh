# The program that `judge` runs: whether it fits its sources, and how it is proved and built. Sourced by `judge`.
# target/judge.built says what the program was built from: a digest of its sources, and the stamp that rt gave it. rt removes its
# stamp before it builds and puts it back only behind a proof and a link, so a build that was broken off is no good program.
program=$root/crates/judge/out/judge
stamp=$program.stamp
built=$root/target/judge.built

# The crates of the program, found from its line in crates.txt: an edit of any other does not concern it.
crates_of_program() {
    awk '
        /^[a-z]/ { name = $1; sub(/:$/, "", name); $1 = ""; needs[name] = $0 }
        function reach(c,   i, n, d) {
            if (seen[c]++ || !(c in needs)) return
            print c
            n = split(needs[c], d, " ")
            for (i = 1; i <= n; i++) reach(d[i])
        }
        END { reach("judge") }' "$root/crates.txt"
}

# The folders of these that a program is made of, below the root.
sources_of_program() {
    for crate in $(crates_of_program); do
        for part in src specs proofs; do
            [ ! -d "$root/crates/$crate/$part" ] || printf 'crates/%s/%s\n' "$crate" "$part"
        done
    done
}

# A digest of names and contents.
digest() {
    (cd "$root" && find $(sources_of_program) -type f -exec sha256sum {} + | LC_ALL=C sort | sha256sum)
}

# Whether anything among the sources was changed, in whatever way, since a file was written.
changed_since() { # FILE
    [ -n "$(cd "$root" && find $(sources_of_program) -cnewer "$1" -print 2>/dev/null | head -n 1)" ]
}

# Whether the program fits its sources. A source that was touched and not changed costs one comparison of digests.
is_current() {
    [ -x "$program" ] && [ -f "$stamp" ] || return 1
    if [ ! -f "$built" ]; then
        ! changed_since "$stamp"
        return
    fi
    { read -r was_digest && read -r was_stamp; } <"$built" || return 1
    [ "$was_stamp" = "$(cat "$stamp")" ] || return 1
    changed_since "$built" || return 0
    [ "$(digest)" = "$was_digest" ] || return 1
    touch "$built" 2>/dev/null
    return 0
}

# Shows how far rt has come: a line for each crate that it proves. Every line that rt writes goes to a log; of a crate the last two
# are 'crate NAME: ..' and its verdict. A library that was proved before has none.
show_progress() { # LOG: its descriptor is 8
    while read -r line <&8; do
        case $line in
        'crate '*': '*)
            rest=${line#crate }
            crate_said=${rest%%:*}
            ;;
        'logic=proved '*)
            done_crates=$((done_crates + 1))
            say "proved $crate_said ($done_crates of $all_crates)"
            ;;
        esac
    done
}

# Ends rt and what it started: it has a process group of its own.
break_off() {
    trap '' INT TERM HUP
    kill -s TERM -- "-$prover" 2>/dev/null
    wait "$prover" 2>/dev/null
    could_not 'broken off; the next run takes it up again where it stood'
}

run_rt() {
    log=$root/target/judge.log
    : >"$log"
    exec 8<"$log"
    [ -x "$program" ] || rm -f "$stamp"
    # rt runs what it has built, on an empty sheet
    (cd "$root/crates/judge" && exec setsid rt run) >"$log" 2>&1 </dev/null &
    prover=$!
    trap break_off INT TERM HUP
    while kill -0 "$prover" 2>/dev/null; do
        show_progress
        sleep 0.2 9>&- &
        wait $!
    done
    wait "$prover"
    status=$?
    trap - INT TERM HUP
    show_progress
    exec 8<&-
    return "$status"
}

build() {
    kit=$(cat "$root/command/kit")
    command -v rt >/dev/null || could_not "the program is not built, or a source of it has changed, and rt is not on the path: install the Rattle kit ($kit)"
    { mkdir -p "$root/target" && : >>"$root/target/judge.lock"; } 2>/dev/null || could_not "the program is not built, or a source of it has changed, and $root cannot be written: run judge once where it can"
    exec 9>>"$root/target/judge.lock"
    flock -n 9 || {
        say 'another run is building the program; waiting for it'
        flock 9
    }
    if is_current; then
        exec 9>&-
        return
    fi
    all_crates=$(crates_of_program | wc -l) done_crates=0 crate_said=
    say "proving and building the program, $all_crates crates: about four minutes the first time, less where only some have changed"
    from=$(digest)
    if ! run_rt; then
        cat "$root/target/judge.log" >&2
        [ "$(rt version)" = "$kit" ] || say "the kit here is $(rt version), and the one wanted is $kit"
        could_not 'the program could not be built'
    fi
    # rt's stamp ends with no newline
    printf '%s\n%s\n' "$from" "$(cat "$stamp")" >"$built.new" && mv "$built.new" "$built"
    exec 9>&-
}

have_program() {
    is_current || build
}
