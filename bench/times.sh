# shellcheck shell=bash disable=SC2154
# Processor times, for the scripts beside this one: noted under names in the folder `room`. Sourced by bash.
TIMEFORMAT='%U %S'
taken() { # NAME COMMAND..: runs it on standard input, and notes its processor time, user and system, under the name
    { time "${@:2}" >/dev/null 2>&3; } 3>&2 2>>"$room/$1.times"
}
least() { # NAME [RUNS]: the fewest milliseconds noted, and at least one, for one of so many runs
    awk -v n="${2:-1}" '{ ms = ($1 + $2) * 1000; if (NR == 1 || ms < best) best = ms } END { print (best < 1 ? 1 : best) / n }' "$room/$1.times"
}
