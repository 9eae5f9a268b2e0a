#!/usr/bin/env bash
# Compares each file of examples/ with its copy in a test of the gate or beside the program, and then, by
# scripts/pages, the blocks of the pages of docs/ with the files, by scripts/examples the examples of docstrings with
# their tests, and by scripts/keys the keys of plan files in all places that list them. Prints `N copies agree, the pages
# and the docstrings`, or what differs on standard error with exit status 1.
set -eu
cd -- "$(dirname -- "$0")"

# The text of a constant of a test file.
constant() {
    awk -v name="$1" '
        index($0, "const " name ": &str =") { armed = 1 }
        armed && index($0, "r#\"") { armed = 0; inside = 1; sub(/.*r#"/, "") }
        inside && /^"#;$/ { exit }
        inside { print }
    ' "$2"
}

status=0
count=0

# Whether the constant of this name in this file is the example.
is_constant() {
    count=$((count + 1))
    if ! [ -f "$2" ] || ! constant "$1" "$2" | cmp -s - "$3"; then
        echo "examples: $3 is not what $1 of ${2#../} has" >&2
        status=1
    fi
}

# Whether the constant of this name in the test file of this crate is the example.
is_copied() {
    is_constant "$1" "../crates/$3/src/tests/$2.rt" "$4"
}

# step: each script with its plan and its whole output. A plan that other tests read too is in pb_fakes.
for script in *.steps; do
    name=${script%.steps}
    plan=${name^^}
    plan=${plan//-/_}
    for part in PLAN:toml STEPS:steps EXPECTED:expected; do
        if [ "$part" = PLAN:toml ] && grep -q "pub const $plan:" ../crates/pb_fakes/src/plans.rt; then
            is_constant "$plan" ../crates/pb_fakes/src/plans.rt "$name.toml"
        else
            is_copied "${part%:*}" "step/${name//-/_}" pb_commands_tests "$name.${part#*:}"
        fi
    done
done

# flat: one example is what the gate runs the program on, the others are tests.
for part in broadcast.txt:stdin broadcast.expected:stdout; do
    count=$((count + 1))
    if ! cmp -s -- "${part%:*}" "../crates/pbnet/${part#*:}"; then
        echo "examples: ${part%:*} is not crates/pbnet/${part#*:}" >&2
        status=1
    fi
done
is_copied LEARNING examples pb_cmd_flat_tests learning.txt
is_copied LEARNING_ANSWERS examples pb_cmd_flat_tests learning.expected
is_copied REASONS examples pb_cmd_flat_tests reasons.txt
is_copied REASONS_ANSWERS examples pb_cmd_flat_tests reasons.expected

# check and show.
is_constant PLAN_FILE ../crates/pb_fakes/src/plans.rt plan-file.toml
is_copied PLAN_FILE_ANSWER check/examples pb_commands_tests plan-file.expected
is_copied SHOWN check/examples pb_commands_tests show.expected

# init.
is_copied INIT init/examples pb_commands_tests init.toml

# run: the metro ring between captures.
is_copied PLAN captures pb_cmd_run_tests captures.toml
is_copied REPORT captures pb_cmd_run_tests captures.report
for name in none:plans provider:captures camera:captures; do
    octets=$(od -An -v -tx1 "captures/${name%:*}.pcap" | tr -d '\n' | sed 's/ 00/\\0/g; s/ \([0-9a-f][0-9a-f]\)/\\x\1/g')
    test=../crates/pb_cmd_run_tests/src/tests/${name#*:}.rt
    count=$((count + 1))
    if ! sed -z 's/\\\n *//g' "$test" | grep -qF "b\"$octets\""; then
        echo "examples: captures/${name%:*}.pcap is not what ${test#../} has" >&2
        status=1
    fi
done

../scripts/pages || status=1
../scripts/examples || status=1
../scripts/keys || status=1
[ "$status" != 0 ] || echo "$count copies agree, the pages and the docstrings"
exit "$status"
