#!/bin/sh
# Compares what `lockd` says on standard error, and its exit status, with errors.txt.
#
#     checks/errors.sh            shows where they differ
#     checks/errors.sh --write    writes errors.txt
here=$(cd "$(dirname "$0")" && pwd) || exit 1
lockd=$here/../lockd

# Runs `lockd` with these words, and shows what it says.
shows() {
    echo "$ lockd $*"
    "$lockd" "$@" 2>&1 >/dev/null
    echo "status $?"
}

# Runs `lockd play` on a schedule of this one line.
refused() {
    printf '%s\n' "$1" | shows play
}

# A line of 513 letters.
long_line() {
    head -c 513 /dev/zero | tr '\0' x
}

# One line more than a schedule may have.
long_schedule() {
    yes 'tick 5' | head -n 1000001
}

all() {
    refused 'begin 1 1 once lock_tyr a 5'
    refused 'begin 1 1 once lock_try a! 5'
    refused 'begin 1 1 once lock_try a'
    refused 'begin 65 1 once lock_try a 5'
    refused 'begin 1 1 later lock_try a 5'
    refused 'begin 1 1 long lock_unlock a 5'
    refused 'begin 1 1 once lock_try a wach'
    refused 'begin 1 1 once permit_try p 00000000-0000-0000-0000-000000000001 watch'
    refused 'rask 1 1 latch a'
    refused 'rexec 1 1 lock'
    refused 'rtake 1 257 lock a'
    refused 'wake 1'
    refused 'push 65'
    refused 'show 1'
    refused "$(long_line)"
    refused 'tick 05'
    refused ''
    refused "$(printf 'tick\t5\r')"
    long_schedule | shows play
    shows
    shows plya
    shows serve
    shows play x
    shows race
    shows race 2
    shows race 0 1
    shows race 65 1
    shows race 02 3
    shows race 2 x
    shows race 1 10001
    shows race 2 3 text
    shows race 2 3
    shows drill
    shows drill 7
    shows drill 7 1000001
    shows drill 07 1
    shows drill x 1
    shows drill 18446744073709551616 1
    shows drill 7 0 1
    shows drill 7 0
    shows "$(printf 'pl\377y')"
    shows play <&-
}

if [ "$1" = --write ]; then
    all >"$here/errors.txt"
else
    all | diff "$here/errors.txt" - && echo 'standard error is as in errors.txt'
fi
