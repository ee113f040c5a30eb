# What the scripts print-plan and plan-variances share: having their programs. They read this file, which is no command of its own.
# A script's program is proved and built first, by one caller at a time, unless it was built by that script from the sources as they are now: then it
# is just run, which needs neither rt nor leave to write. A program of other sources is never run.
# A script sets its name, script, and its program's crate, crate; it has a function help; and it calls begin, after which $program can be run.
# shellcheck shell=bash

program=target/bin/${crate:?}
# the sums of the sources and of the program that was built from them; each script has its own, so that none makes another build again
stamp=target/${script:?}.stamp
log=target/$script.log

say() { printf '%s: %s\n' "$script" "$*" >&2; }
fail() { say "$@"; exit 2; }

# The lines of crates.txt for the program's crate and all that it needs of this repository, without comments.
needed() {
    awk -v crate="$crate" '
        function visit(name,    needs, count, i) {
            if (!(name in line) || name in seen) return
            seen[name]
            print line[name]
            count = split(substr(line[name], index(line[name], ":") + 1), needs, " ")
            for (i = 1; i <= count; i++) visit(needs[i])
        }
        { sub(/#.*/, "") }
        /:/ { name = $0; sub(/:.*/, "", name); gsub(/[ \t]/, "", name); line[name] = $0 }
        END { visit(crate) }' crates.txt
}

# The sum of those lines and of the sources of their crates.
sources() {
    needed | while IFS= read -r line; do
        printf '%s\n' "$line"
        find "crates/${line%%:*}" -name out -prune -o \( -name '*.rt' -o -name '*.antt' \) -exec sha256sum {} + | LC_ALL=C sort
    done | sha256sum
}

# Whether the program is there and was built from the sources as they are now.
built() { [ -x "$program" ] && [ -r "$stamp" ] && [ "$(sources; sha256sum < "$program")" = "$(cat "$stamp")" ]; }

# Takes the lock on a file that is open, and where another has it, says what that one does, and waits.
lock() { # FILE WHAT
    flock -n "$1" || { say "$2; waiting for it"; flock "$1"; } || fail 'the lock cannot be had'
}

# Proves and builds the program, unless another caller just has. File 8 is locked against the same script, file 9 against all of them.
build() {
    local all before status start=$SECONDS count=0 line name=
    lock 8 "another $script builds the program"
    if built; then return; fi
    lock 9 'another script builds its program'
    { mkdir -p target && : > "$log"; } 2> /dev/null || fail "the program is to be built, and $PWD/target cannot be written"
    all=$(needed | wc -l)
    before=$(sources)
    say "proving and building the program, $all crates; some minutes the first time"
    # rt runs what it has built, here with no input and unseen; what rt itself says comes on standard error
    (cd "crates/$crate" && rt run 2>&1 < /dev/null > /dev/null) | tee "$log" | while IFS= read -r line; do
        if [[ $line =~ ^crate\ ([A-Za-z0-9_]+):\  ]]; then name=${BASH_REMATCH[1]}; fi
        if [[ $line == logic=proved* ]] && [ -n "$name" ]; then
            say "$((++count)) of $all proved, $((SECONDS - start)) s: $name"
            name=
        fi
    done
    status=${PIPESTATUS[0]}
    if [ "$status" -ne 0 ] || [ ! -x "crates/$crate/out/$crate" ]; then
        cat "$log" >&2
        fail "the program is not built (rt run in crates/$crate ended with status $status)"
    fi
    { mkdir -p target/bin && cp "crates/$crate/out/$crate" "$program.new" && mv "$program.new" "$program"; } || fail "$PWD/$program cannot be written"
    { printf '%s\n' "$before"; sha256sum < "$program"; } > "$stamp"
}

# Answers --help, refuses every other argument with a sentence, goes to the repository's folder and has the program built.
begin() { # SENTENCE ARGUMENT..
    local sentence=$1 why tool
    shift
    [ $# -eq 1 ] && { [ "$1" = --help ] || [ "$1" = -h ]; } && { help; exit 0; }
    [ $# -eq 0 ] || fail "$sentence"
    # a closed standard input is an empty one
    { : 3<&0; } 2> /dev/null || exec < /dev/null
    cd "$(dirname "${BASH_SOURCE[0]}")/.." || fail 'its folder cannot be entered'

    if ! built; then
        [ -x "$program" ] && [ -r "$stamp" ] && why='the sources changed since the program was built' || why='the program is not built by this script yet'
        for tool in rt flock; do command -v "$tool" > /dev/null || fail "$why, and $tool, which building needs, is not on the path"; done
        # the locks are on files that no build removes, and not on the folders that rt itself locks
        (build) 8< "$script" 9< scripts || exit 2
    fi
}
