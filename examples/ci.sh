#!/bin/sh
# Fails unless each plan is valid, has no loop, and survives every failure of a link that it does not accept.
# Usage: examples/ci.sh PLAN..; the variable PBNET can name the program.
set -eu
pbnet=${PBNET:-./pbnet}
report=$(mktemp)
trap 'rm -f "$report"' EXIT

fail() {
    echo "$plan fails with status $1:"
    cat "$report"
    exit "$1"
}

for plan in "$@"; do
    "$pbnet" check --strict "$plan" >"$report" || fail $?   # 1: no plan; 4: a part of it cannot work
    grep -qx 'forest yes' "$report" || fail 1               # a forwarding loop at the start
    "$pbnet" survive --strict "$plan" >"$report" || fail $? # 4: a failure does harm, or an acceptance is stale
done
