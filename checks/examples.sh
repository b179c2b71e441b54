#!/bin/sh
# Compares what `lockd play` writes for each schedule of examples/ with the transcript beside it, and
# what `lockd race` and `lockd drill` write with the summaries that they should be.
here=$(cd "$(dirname "$0")" && pwd) || exit 1
lockd=$here/../lockd
status=0

# The summary of a race of so many threads that make so many calls each.
summary() {
    printf 'threads %s\nentries %s\n' "$1" "$(($1 * $2))"
    for caller in $(seq "$1"); do
        echo "caller $caller $2"
    done
}

# Compares a race of so many threads that make so many calls each with its summary.
race() {
    [ "$("$lockd" race "$1" "$2")" = "$(summary "$1" "$2")" ] && return
    echo "race $1 $2 differs from its summary"
    status=1
}

# Compares a drill from this number of so many events with its summary.
drill() {
    [ "$("$lockd" drill "$1" "$2")" = "$(printf 'events %s\nno %s\nentries %s\nmoment %s\nasleep %s' "$2" "$3" "$4" "$5" "$6")" ] && return
    echo "drill $1 $2 differs from its summary"
    status=1
}

for schedule in "$here"/../examples/*.txt; do
    "$lockd" play <"$schedule" | diff "${schedule%.txt}.transcript" - || status=1
done
race 1 0
race 2 3
race 64 1000
drill 7 0 0 0 0 0
drill 7 100000 80285 5175 3191294 0
drill 23 100000 80385 5078 3124463 0
drill 7 1000000 803162 51600 31291648 0
[ "$status" = 0 ] && echo 'each transcript and each summary is as it was'
exit "$status"
