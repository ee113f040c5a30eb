# What the tests of the scripts share; they read this file, which is no test of its own.
# A script is tested in a copy of the sources, with a stand-in for rt that proves nothing: it notes its call and its turn, waits a little, names some
# crates and puts a program that is at hand in its place.
# shellcheck shell=bash
set -u
repository=$(cd "$(dirname "$(readlink -f "${BASH_SOURCE[0]}")")/.." && pwd)
passed=0
failed=0
room=$(mktemp -d) || exit 2
trap 'rm -rf "$room"' EXIT
chmod 755 "$room"

# a path with the tools that the scripts need and timeout, without rt, and one with the stand-in
mkdir "$room/programs" "$room/tools" "$room/with-rt" "$room/elsewhere"
for tool in bash env awk cat cp dirname find flock head mkdir mv od readlink sha256sum sort tee timeout tr wc; do
    ln -s "$(command -v "$tool")" "$room/tools/$tool"
done
cat > "$room/with-rt/rt" <<END
#!/usr/bin/env bash
crate=\${PWD##*/}
echo "\$* \$crate" >> "$room/calls"
echo begin >> "$room/turns"
$(command -v sleep) 1
[ ! -e "$room/refuse" ] || { echo 'fn base::wide: not proved' >&2; exit 1; }
for one in base order text "\$crate"; do printf 'crate %s: modules loaded=1 checked=1\nlogic=proved functions=1\n' "\$one" >&2; done
echo 'what the program prints with no input'
mkdir -p out
cat "$room/programs/\$crate" > "out/\$crate"
$(command -v chmod) 755 "out/\$crate"
echo end >> "$room/turns"
END
chmod +x "$room/with-rt/rt"
# shellcheck disable=SC2034
without="$room/tools"
# shellcheck disable=SC2034
with="$room/with-rt:$room/tools"

copy="$room/copy"
fresh() {
    rm -rf "$copy" "$room/calls" "$room/turns" "$room/refuse"
    mkdir "$copy"
    tar -C "$repository" --exclude=out -cf - crates crates.txt scripts print-plan plan-variances | tar -C "$copy" -xf -
    cd "$copy" || exit 2
}
calls() { if [ -e "$room/calls" ]; then wc -l < "$room/calls"; else echo 0; fi; }

# run PATH COMMAND..: runs it with its input, and keeps what it printed, what it said and its status
run() {
    local path=$1
    shift
    PATH=$path "$@" > "$room/stdout" 2> "$room/stderr"
    # shellcheck disable=SC2034
    status=$?
}

# is NAME FOUND EXPECTED: a test
is() {
    if [ "$2" = "$3" ]; then
        passed=$((passed + 1))
    else
        failed=$((failed + 1))
        printf 'FAILED: %s\n  found:    %s\n  expected: %s\n' "$1" "$2" "$3"
    fi
}
# holds NAME COMMAND..: a test
holds() {
    local name=$1
    shift
    "$@" > /dev/null
    is "$name" $? 0
}

# the last line of a test: 'N passed, 0 failed', and status 0, only if all passed
result() {
    echo "$passed passed, $failed failed"
    [ "$failed" -eq 0 ]
}
