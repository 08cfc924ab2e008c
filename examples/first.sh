#!/bin/sh
# Builds the program without a proof and runs the month of three loans over books in memory. While it builds, a line every
# ten seconds says so on standard error: it takes one to three minutes, by the machine and what else it does.
top=$(cd "$(dirname "$0")/.." && pwd) || exit 1
(
    trap 'kill "$nap"; exit' TERM
    seconds=0
    while :; do
        sleep 10 &
        nap=$!
        wait "$nap"
        seconds=$((seconds + 10))
        echo "building, $seconds seconds so far (one to three minutes)" >&2
    done
) > /dev/null &
clock=$!
cd "$top/crates/serv_cli" && rt try -- j session < ../../examples/month/month.lines
status=$?
kill "$clock"
exit "$status"
