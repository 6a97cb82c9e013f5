# What the test scripts share.

say() { printf '== %s\n' "$*"; }

# need COMMAND WHAT-IT-IS
need() {
    command -v "$1" >/dev/null 2>&1 && return
    printf '%s: %s is not on the PATH: %s\n' "$0" "$1" "$2" >&2
    printf '0 passed, 1 failed\n'
    exit 1
}

# program NAME: the path of a proved and built program; it is built if it isn't there, or if a source is newer
program() {
    local built="crates/$1/out/$1"
    if [ ! -x "$built" ] || [ -n "$(find crates crates.txt -name out -prune -o -type f -newer "$built" -print -quit)" ]; then
        say "proving and building $1 (minutes the first time)" >&2
        (cd "crates/$1" && rt run </dev/null) >&2 || { printf '0 passed, 1 failed\n'; exit 1; }
    fi
    # one that runs can't be written over, but it can be replaced
    cmp -s "$built" "target/bin/$1" || { mkdir -p target/bin && rm -f "target/bin/$1" && cp -p "$built" target/bin/; } || exit 1
    printf '%s\n' "$PWD/target/bin/$1"
}

passed=0 failed=0

# same WHAT WANTED GOT
same() {
    if [ "$2" = "$3" ]; then
        passed=$((passed + 1))
    else
        failed=$((failed + 1))
        printf 'FAILED: %s\n  wanted: %s\n  got:    %s\n' "$1" "$2" "$3"
    fi
}

# add LINE: adds what a line 'N passed, M failed' says; one that says nothing, or that nothing was done, counts as a failure
add() {
    if [[ $1 =~ ^([0-9]+)\ passed,\ ([0-9]+)\ failed$ ]] && [ $((BASH_REMATCH[1] + BASH_REMATCH[2])) -gt 0 ]; then
        passed=$((passed + BASH_REMATCH[1])) failed=$((failed + BASH_REMATCH[2]))
    else
        failed=$((failed + 1))
    fi
}

# run_part LOG COMMAND ..: runs it, shows what it prints, which stays in LOG, and adds its last line
run_part() {
    local log=$1 before=$failed status; shift
    "$@" | tee "$log"
    status=${PIPESTATUS[0]}
    add "$(tail -n 1 "$log")"
    # one that failed and says nothing of it
    if [ "$status" -ne 0 ] && [ "$failed" -eq "$before" ]; then failed=$((failed + 1)); fi
}

# The last line of a test, and its exit status.
finish() {
    printf '%s passed, %s failed\n' "$passed" "$failed"
    [ "$failed" -eq 0 ]
    exit
}

# blank_drives FOLDER: six blank drive files of 4 MiB
blank_drives() {
    mkdir -p "$1" && for i in 0 1 2 3 4 5; do truncate -s 4194304 "$1/drive$i"; done
}
