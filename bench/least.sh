#!/bin/sh
# The time in microseconds of the words after the first two, from the file $1 into the file $2.
time_of() (
    from=$1 into=$2
    shift 2
    start=$(date +%s%N)
    "$@" <"$from" >"$into"
    echo $((($(date +%s%N) - start) / 1000))
)

# The least time of five runs of the same words.
least() (
    best=
    for _ in 1 2 3 4 5; do
        took=$(time_of "$@")
        if [ -z "$best" ] || [ "$took" -lt "$best" ]; then best=$took; fi
    done
    echo "$best"
)
