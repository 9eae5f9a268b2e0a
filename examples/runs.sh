#!/usr/bin/env bash
# Runs the program on the examples, and compares what it prints and writes with the files of examples/ and docs/: each
# command, each report as JSON and CSV, and `run` between captures, pipes and sockets, with a clock, events and a
# control socket. It also runs plans that are refused, and compares what is reported and which files are left.
#
# usage: examples/runs.sh
#
# The program is ./pbnet, or the one that the variable PBNET names. Each test prints a line on standard output, `ok NAME`
# or `FAILED NAME: WHY`. The last line is `N passed, M failed`, and the exit status is 0 if M is 0. Files are written to
# out/. The gate runs the same texts as tests, which same.sh compares with these files.
set -eu

program=$(command -v -- "${PBNET:-$(dirname -- "$0")/../pbnet}") || program=
case $program in
    '')
        echo "runs.sh: there is no program ${PBNET:-./pbnet}" >&2
        exit 1
        ;;
    /*) ;;
    *) program=$PWD/$program ;;
esac
cd -- "$(dirname -- "$0")/.."
# shellcheck source=examples/tests.sh
. examples/tests.sh
export PYTHONDONTWRITEBYTECODE=1

mkdir -p out/broken
"$program" show >/dev/null

# Compares what the program prints with a file of examples/.
prints() {
    local want=$1
    shift
    begin "$want"
    runs "out/$want" "$@"
    ended "${status-0}"
    same "out/$want" "examples/$want"
}

for it in broadcast learning reasons; do
    prints "$it.expected" flat 3 <"examples/$it.txt"
done
prints show.expected show
prints plan-file.expected check examples/plan-file.toml
prints init.toml init

# `run` accepts what `init` prints, and the broadcast of its first port leaves all others. A ring has a clock.
for words in "" "--ring 3" "--star 4" "--dual-homed 3"; do
    begin "init${words:+ $words}"
    # shellcheck disable=SC2086
    runs out/begun.toml init $words
    ended 0
    runs out/begun.check check out/begun.toml
    ended 0
    runs out/begun.report run --strict out/begun.toml
    ended 0
    all=$(grep -c '^port ' out/begun.report) || true
    left=$(grep -c '^port C[0-9]* entered 0 left 1 filtered 0$' out/begun.report) || true
    if [ "$left" = 0 ] || [ "$left" != $((all - 1)) ]; then
        wrong "the broadcast leaves $left of $all ports"
    fi
done

# Dual-homed bridges survive each failure, with all their services.
begin "init --dual-homed 6 --services 4"
runs out/begun.toml init --dual-homed 6 --services 4
ended 0
runs out/begun.check check --strict out/begun.toml
ended 0
runs out/begun.report survive --bridges out/begun.toml
ended 0

begin "help plan"
runs out/help.plan help plan
ended 0
scripts/keys out/help.plan 2>>out/errors || wrong "the help lacks a key"

broadcast=ffffffffffff02000000010108004142
other=ffffffffffff02000000020208004344
unicast=02000000010102000000020208004344
tagged=ffffffffffff02000000010188a8006408004142
metro=ffffffffffff02000000010108000001
status=4 prints access.expected survive examples/access.toml
prints accept.expected survive examples/accept.toml --strict
begin "ci.sh"
PBNET=$program sh examples/ci.sh examples/failover.toml examples/accept.toml >out/ci.report || wrong "a healthy plan fails"
says out/ci.report ""
if PBNET=$program sh examples/ci.sh examples/failover.toml examples/metro.toml >out/ci.report; then
    wrong "a plan with warnings passes"
fi
prints diff.expected diff examples/access.toml examples/access-video.toml
status=4 prints diff-worse.expected diff examples/access-video.toml examples/access.toml
prints tree.expected tree examples/failover.toml
prints trace.expected trace examples/two-bridges.toml C1 "$broadcast" --then C2 "$unicast"
prints trace-metro.expected trace examples/metro.toml provider "$metro"
prints trace-down.expected trace examples/failover.toml C1 "$broadcast" --down L1 --settle
prints trace-losses.expected trace examples/losses.toml sender "$broadcast" --then sender "$broadcast"
prints trace-options.expected trace examples/two-bridges.toml C1 --to C2 --ctag 5:3 --pcp 2
prints settled.expected check --settle examples/failover.toml

# A script that is a test: its answers, and a finding for a difference.
prints tagged.expected step --test examples/two-bridges.toml <examples/tagged.test
begin "step --test with a difference"
sed 's/^expect polled/expect fed/' examples/tagged.test >out/wrong.test
runs out/wrong step --test examples/two-bridges.toml <out/wrong.test
ended 4
same out/wrong examples/tagged.expected
says out/errors "line 3: wanted fed C1 0, got polled C1 0"

# An option that describes a frame is refused with its range, and the trace is of no frame.
undescribed() {
    local want=$1
    shift
    begin "trace $*"
    runs out/undescribed trace examples/two-bridges.toml C1 "$@"
    ended 2
    same out/undescribed /dev/null
    says out/errors "error: $want"
}
undescribed "--ctag: VID 5000 is not in 0..4094" --ctag 5000
undescribed "--ctag: PCP 8 is not in 0..7" --ctag 5:8
undescribed '--to: "C9" is not an address, a customer port or broadcast' --to C9
undescribed '--from: "C2" is not an address like 02-00-00-00-01-01' --from C2
undescribed "--ethertype: 05ff is not in 0600..ffff" --ethertype 05ff
undescribed "--length: 14 is below the 18 octets of the frame" --ctag 5 --length 14

# A link that fails fails at both ends, and a bridge with its links.
both() {
    local want=$1
    shift
    begin "--down $1 of $want"
    runs out/both.all tree "examples/$want.toml" --down "$1"
    ended 0
    shift
    runs out/both.ends tree "examples/$want.toml" "$@"
    ended 0
    same out/both.all out/both.ends
}
both failover L1 --down B1:1 --down B2:1
both failover B2 --down L1 --down L2
both metro Harbour --down ring1 --down ring2

# A name that the plan lacks is refused by each command with `--down`, in each format.
lacks() {
    local want=$1
    shift
    begin "$*"
    runs out/lacks "$@"
    ended 2
    same out/lacks /dev/null
    says out/errors "$want"
}
for it in "tree examples/metro.toml" "tree --format json examples/metro.toml" "draw examples/metro.toml" \
    "trace examples/metro.toml provider $metro" "trace --format json examples/metro.toml provider $metro"; do
    # shellcheck disable=SC2086
    lacks 'error: no link, bridge or port named "rng1"; did you mean "ring1"?' $it --down rng1
    # shellcheck disable=SC2086
    lacks 'error: no link, bridge or port named "moon"' $it --down ring1 --down moon
done

# The plans of docs/TROUBLESHOOTING.md. That page shows the last lines of two traces.
prints broken/ring-check.expected check examples/broken/ring.toml
prints broken/open-trace.expected trace examples/broken/open.toml C1 "$broadcast"
prints broken/open-tree.expected tree examples/broken/open.toml
prints broken/trunk-trace.expected trace examples/broken/trunk.toml C3 "$broadcast"
status=4 prints broken/trunk-survive.expected survive examples/broken/trunk.toml --service blue
prints broken/tagged-trace.expected trace examples/two-bridges.toml C1 "$tagged"
prints broken/unsettled-trace.expected trace examples/failover.toml C1 "$broadcast"
prints broken/settled-trace.expected trace examples/failover.toml C1 "$broadcast" --settle
prints broken/queue-step.expected step examples/broken/queue.toml <examples/broken/queue.steps
prints_last() {
    local lines=$1 want=$2
    shift 2
    begin "$want"
    runs out/broken/all "$@"
    ended 0
    tail -n "$lines" out/broken/all >"out/$want"
    same "out/$want" "examples/$want"
}
prints_last 2 broken/ring-trace.expected trace examples/broken/ring.toml C1 "$broadcast"
prints_last 1 broken/queue-trace.expected trace examples/broken/queue.toml C1 "$broadcast" --then C2 "$other"

# The documents that were compared, for their schemas.
written=()

# Compares a document with the report of examples/ or out/ that says the same, and with that of examples/, if any.
documents() {
    local report=examples/$1 document=$2 command=$3
    [ -f "$report" ] || report=out/$1
    shift 3
    begin "$document"
    runs "out/$document" "$command" --format "${document##*.}" "$@"
    ended "${status-0}"
    [ ! -f "examples/$document" ] || same_document "out/$document" "examples/$document"
    agrees "$command" "$report" "out/$document"
    case $document in *.json) written+=("out/$document") ;; esac
}

# Compares the report, the warnings and the document of `check --strict` for a plan with warnings with those of examples/.
warns() {
    local it=$1
    begin "$it.errors"
    runs "out/$it.expected" check --strict "examples/$it.toml"
    ended 4
    same "out/$it.expected" "examples/$it.expected"
    same out/errors "examples/$it.errors"
    runs "out/$it.json" check --strict --format json "examples/$it.toml"
    ended 4
    same out/errors "examples/$it.errors"
    same_document "out/$it.json" "examples/$it.json"
    sed 's/^warning: [^:]*:/warning: file:/' "examples/$it.errors" | cat "examples/$it.expected" - >"out/$it.report"
    agrees check "out/$it.report" "out/$it.json"
    written+=("out/$it.json")
}

# Prints a report with harmless failures to out/. Such a report is one of examples/ with lines added.
with_all() {
    local short=$1 all=$2
    shift 2
    begin "$all"
    runs "out/$all" "$@" --all-failures
    ended "${status-0}"
    diff "examples/$short" "out/$all" | grep -q '^<' && wrong "out/$all lacks lines of examples/$short"
    [ ! -f "examples/$all" ] || same "out/$all" "examples/$all"
}
documents plan-file.expected plan-file.json check examples/plan-file.toml
warns broken/warnings

# Compares the errors and the document of `check` for a plan that is refused with those of examples/.
refuses() {
    local it=$1
    shift
    begin "$it.errors"
    runs "out/$it.expected" check "$@" "examples/$it.toml"
    ended 1
    same "out/$it.expected" "examples/$it.expected"
    same out/errors "examples/$it.errors"
    runs "out/$it.json" check "$@" --format json "examples/$it.toml"
    ended 1
    written+=("out/$it.json")
    if [ -f "examples/$it.json" ]; then
        same_document "out/$it.json" "examples/$it.json"
        cat "out/$it.expected" "examples/$it.errors" >"out/$it.all"
        agrees check "out/$it.all" "out/$it.json"
    fi
}
refuses broken/errors --all
refuses broken/misspelt
begin "a plan without warnings"
runs out/strict check --strict examples/metro.toml
ended 0
[ ! -s out/errors ] || wrong "there are warnings"
documents broken/ring-check.expected broken/ring-check.json check examples/broken/ring.toml
status=4 with_all access.expected access-all.expected survive examples/access.toml
status=4 documents access-all.expected access.json survive examples/access.toml
status=4 documents access.expected access.csv survive examples/access.toml
begin survive-down.expected
runs out/survive-down.expected survive --down ring1 --down South --all-failures examples/access.toml
ended 4
status=4 documents survive-down.expected survive-down.json survive --down ring1 --down South examples/access.toml
status=4 with_all broken/trunk-survive.expected broken/trunk-all.expected \
    survive examples/broken/trunk.toml --service blue
status=4 documents broken/trunk-all.expected broken/trunk-survive.json \
    survive examples/broken/trunk.toml --service blue
with_all diff.expected diff-all.expected diff examples/access.toml examples/access-video.toml
documents diff-all.expected diff.json diff examples/access.toml examples/access-video.toml
status=4 with_all diff-worse.expected diff-worse-all.expected diff examples/access-video.toml examples/access.toml
status=4 documents diff-worse-all.expected diff-worse.json diff examples/access-video.toml examples/access.toml
documents tree.expected tree.json tree examples/failover.toml
documents broken/open-tree.expected broken/open-tree.json tree examples/broken/open.toml
documents trace.expected trace.json trace examples/two-bridges.toml C1 "$broadcast" --then C2 "$unicast"
documents trace-metro.expected trace-metro.json trace examples/metro.toml provider "$metro"
documents trace-losses.expected trace-losses.json \
    trace examples/losses.toml sender "$broadcast" --then sender "$broadcast"
documents broken/tagged-trace.expected broken/tagged-trace.json trace examples/two-bridges.toml C1 "$tagged"
documents broken/settled-trace.expected broken/settled-trace.json \
    trace examples/failover.toml C1 "$broadcast" --settle
for script in examples/*.steps; do
    it=$(basename -- "$script" .steps)
    prints "$it.expected" step "examples/$it.toml" <"$script"
    documents "$it.expected" "$it.json" step "examples/$it.toml" <"$script"
    documents "$it.expected" "$it.csv" step "examples/$it.toml" <"$script"
done
documents record.report record.json run examples/record.toml
documents record.report record.csv run examples/record.toml
cat examples/captures.report examples/captures.errors >out/captures.all
documents captures.all captures.json run examples/captures.toml
documents captures.report captures.csv run examples/captures.toml

# A document says why a command failed, with the status of the text.
begin "a document of a plan file that is missing"
runs out/none.json check --format json examples/none.toml
ended 3
has_line out/none.json '  "fault": "path",'
begin "a document of a service that the plan lacks"
runs out/lacks.json survive --format json --service green examples/access.toml
ended 2
has_line out/lacks.json '    "service": "green"'
written+=(out/none.json out/lacks.json)
begin "a document of a plan that is refused"
echo 'x = 1' >out/wrong.toml
runs out/wrong.json run --format json out/wrong.toml
ended 1
has_line out/wrong.json '    "fault": "unknown",'
written+=(out/wrong.json)

begin "the picture of the pages"
runs out/metro.svg draw examples/metro.toml
ended 0
same out/metro.svg docs/metro.svg
runs out/nothing draw examples/metro.toml -o out/metro-file.svg
ended 0
same out/metro-file.svg docs/metro.svg
runs out/trace-metro.svg trace examples/metro.toml provider ffffffffffff02000000010108000001 --format svg
ended 0
same out/trace-metro.svg docs/trace-metro.svg
begin "the lists of services at links"
runs out/lists.svg draw examples/access.toml --lists
ended 0
if [ "$(grep -c '<g id="ends-south1".*<tspan x="0" dy="13">office</tspan>' out/lists.svg)" != 1 ]; then
    wrong "no list at south1"
fi
begin "draw does not overwrite its plan"
cp examples/metro.toml out/kept.toml
runs out/nothing draw out/kept.toml -o ./out/../out/kept.toml
ended 2
says out/errors "error: invalid value './out/../out/kept.toml' for '--output <PATH>': it is the plan file"
same out/kept.toml examples/metro.toml

# Nothing down, 10 links, 8 bridges and 45 pairs of links are a row each.
begin "the page of a report"
runs out/access.html report --bridges --pairs examples/access.toml
ended 0
[ "$(grep -c '^<tr data-states=' out/access.html)" = 64 ] || wrong "not 64 rows of failures"
runs out/nothing report --bridges --pairs examples/access.toml -o out/access-file.html
ended 0
same out/access-file.html out/access.html
begin "the page of a report on a change"
runs out/change.html report examples/access-video.toml --diff examples/access.toml
ended 0
sed -n '/^<section id="change">/,/^<\/pre>/p' out/change.html |
    sed '1,2d; s/^<pre>//; /^<\/pre>/d; s/&gt;/>/g' >out/change.said
same out/change.said examples/diff.expected
begin "a report on a plan that is refused"
for words in "out/wrong.toml" "examples/metro.toml --diff out/wrong.toml"; do
    # shellcheck disable=SC2086
    runs out/unwritten.line report $words -o out/unwritten.html
    ended 1
    has_line out/unwritten.line "plan: [0-9]* unknown x"
    missing out/unwritten.html
done
begin "report does not overwrite a plan"
runs out/nothing report examples/access.toml --diff out/kept.toml -o out/kept.toml
ended 2
says out/errors "error: invalid value 'out/kept.toml' for '--output <PATH>': it is the plan file"
same out/kept.toml examples/metro.toml

begin "run record.toml"
runs out/record.report run examples/record.toml
ended 0
same out/record.report examples/record.report
same out/provider.pcap examples/captures/provider.pcap
same out/camera.pcap examples/captures/camera.pcap

begin "run tap.toml"
runs out/tap.report run --strict examples/tap.toml
ended 0
same out/tap.report examples/tap.report
same out/trunk-ab.pcap examples/captures/trunk-ab.pcap
same out/trunk-ba.pcap examples/captures/trunk-ba.pcap

begin "run captures.toml"
runs out/captures.report run examples/captures.toml
ended 0
same out/captures.report examples/captures.report
same out/errors examples/captures.errors
same out/shop.pcap examples/captures/provider.pcap
same out/hotel.pcap examples/captures/provider.pcap
same out/desk.pcap examples/captures/camera.pcap
for it in provider exchange office camera; do
    same "out/$it.pcap" examples/captures/none.pcap
done

# The number of BPDUs on a link depends on the schedule, so these reports are compared without the lines of links.
begin "run clock.toml"
runs out/clock.all run --strict examples/clock.toml
ended 0
without_links out/clock.all out/clock.report
same out/clock.report examples/clock.report

begin "run --settle"
grep -v '^hold' examples/clock.toml >out/settle.toml
runs out/settle.all run --strict --settle out/settle.toml
ended 0
without_links out/settle.all out/settle.report
same out/settle.report examples/clock.report
has_line out/errors 'bridges converged after [0-9]* ticks'

begin "run failover-run.toml"
runs out/failover-run.all run --strict examples/failover-run.toml
ended 0
without_links out/failover-run.all out/failover-run.report
same out/failover-run.report examples/failover-run.report
says out/errors ""

# Runs a plan that is refused: it prints `fault: path`, ends with status 3, and says this on standard error.
refuses() {
    runs out/refused.report run out/refused.toml
    ended 3
    says out/refused.report "fault: path"
    says out/errors "$1"
}

none=examples/captures/none.pcap
keep=out/keep.pcap
cp examples/captures/provider.pcap "$keep"
rm -f out/made.pcap out/none.sock
begin "a capture is kept if a socket is missing"
plan "$(capture "$none" "$keep")" "$(socket out/none.sock)" >out/refused.toml
refuses "error: port C2: connect out/none.sock: No such file or directory (os error 2)"
same "$keep" examples/captures/provider.pcap
begin "a capture is kept that is read too"
plan "$(capture "$keep" ./out//keep.pcap)" >out/refused.toml
refuses "error: port C1: write ./out//keep.pcap: also read by port C1"
same "$keep" examples/captures/provider.pcap
begin "a capture is kept that two ports write"
plan "$(capture "$none" "$keep")" "$(capture examples/captures/camera.pcap "out/../$keep")" >out/refused.toml
refuses "error: port C2: write out/../$keep: also written by port C1"
same "$keep" examples/captures/provider.pcap
begin "a document of a path that could not be used"
runs out/refused.json run --format json out/refused.toml
ended 3
cat out/refused.report out/errors >out/refused.all
agrees run out/refused.all out/refused.json
written+=(out/refused.json)
begin "a capture is not made if another can't be"
plan "$(capture "$none" out/made.pcap)" "$(capture "$none" out/none/c2.pcap)" >out/refused.toml
refuses "error: port C2: write out/none/c2.pcap: No such file or directory (os error 2)"
missing out/made.pcap

ln -sf refused.toml out/refused.link
for it in out/refused.toml out/refused.link; do
    begin "a port that writes the plan file, as $it"
    plan "$(capture "$none" "$it")" >out/refused.toml
    cp out/refused.toml out/refused.kept
    refuses "error: port C1: write $it: also the plan file"
    same out/refused.toml out/refused.kept
done
# (the gate refuses a folder with links)
rm -f out/refused.link

begin "a socket is removed if a later file is missing"
rm -f out/made.sock
plan 'kind = "socket"\nlisten = "out/made.sock"' "$(capture out/none.pcap out/made.pcap)" >out/refused.toml
refuses "error: port C2: read out/none.pcap: No such file or directory (os error 2)"
missing out/made.sock
missing out/made.pcap

begin "an input that is pcapng"
printf '\n\r\r\n\034\0\0\0\115\074\053\032\001\0\0\0\377\377\377\377\377\377\377\377' >out/wrong.pcapng
plan "$(capture out/wrong.pcapng out/left.pcap)" >out/pcapng.toml
runs out/pcapng.all run out/pcapng.toml
ended 3
tail -n 1 out/pcapng.all >out/pcapng.report
says out/pcapng.report "fault: port C1 1"
says out/errors "error: port C1: cannot read out/wrong.pcapng: it is a pcapng file
hint: convert it to pcap by \`editcap -F pcap\`
port C1: not a capture"

# The writer of the named pipe comes late, and holds up nobody.
# What is printed never gets into a file that took the place of a closed descriptor.
begin "standard input and output closed"
rm -f out/desk.pcap out/camera.pcap
"$program" run examples/captures.toml <&- >&- 2>out/errors || wrong "the exit status is $?"
same out/desk.pcap examples/captures/camera.pcap
same out/camera.pcap examples/captures/none.pcap

begin "standard input, output and error closed"
rm -f out/desk.pcap
"$program" run examples/captures.toml <&- >&- 2>&- || wrong "the exit status is $?"
same out/desk.pcap examples/captures/camera.pcap

begin "a plan file without end"
runs out/endless check /dev/zero
ended 3
echo "fault: read" | same out/endless -
grep -q "more than 67108864 octets" out/errors || wrong "the reason is not told"

begin "a folder for a plan file"
for command in check step run tree survive draw report; do
    runs out/folder "$command" examples
    ended 3
    says out/folder "fault: read"
    says out/errors "error: cannot read examples: Is a directory (os error 21)"
done

begin "captures by standard input and by a named pipe"
rm -f out/late.fifo
mkfifo out/late.fifo
plan "$(capture - out/left.pcap)" "$(capture out/late.fifo out/right.pcap)" >out/pipes.toml
(sleep 1 && timeout 30 cp examples/captures/camera.pcap out/late.fifo) &
# shellcheck disable=SC2002
cat examples/captures/provider.pcap | {
    runs out/pipes.all run --seconds 30 out/pipes.toml
    echo "$told" >out/pipes.status
}
wait
says out/pipes.status 0
same out/right.pcap examples/captures/provider.pcap
head -n 3 out/pipes.all >out/pipes.report
says out/pipes.report "ended drained
port C1 entered 3 left 2 filtered 0
port C2 entered 2 left 3 filtered 0"

begin "records with the time of day"
{
    printf '[network]\ntick_ms = 1\n\n'
    plan "$(capture examples/captures/provider.pcap out/left.pcap)" "$(capture "$none" out/right.pcap)"
    printf 'stamp = "time"\n'
} >out/times.toml
before=$(date +%s)
runs out/times.report run --strict out/times.toml
ended 0
seconds=$(od -An -j24 -N4 -tu4 --endian=little out/right.pcap | tr -d ' ')
micros=$(od -An -j28 -N4 -tu4 --endian=little out/right.pcap | tr -d ' ')
if ! [ "$seconds" -ge "$before" ] || [ "$seconds" -gt "$(date +%s)" ] || [ "$micros" -gt 999999 ]; then
    wrong "a record has the time $seconds.$micros"
fi

# Each command prints the rule that a plan breaks, and standard error says where: the table that lacks a key, or the
# place at which the reader of TOML stopped.
is_wrong() {
    local command
    for command in check step run; do
        begin "$command of a plan with the fault $1"
        runs out/wrong.answer "$command" out/wrong.toml </dev/null
        ended 1
        says out/wrong.answer "$1"
        says out/errors "$2"
    done
}
printf '[network]\nageing = 300\n\n[[bridge]]\nname = "B1"\n' >out/wrong.toml
is_wrong "plan: 3 missing bridge[0].address" "out/wrong.toml:4:1: bridge \"B1\": address is missing
    [[bridge]]
    ^^^^^^^^^^"
printf '[network]\nageing = 300\nageing = 300\n' >out/wrong.toml
is_wrong "plan: 2 toml" "out/wrong.toml:3:1: duplicate key
    ageing = 300
    ^^^^^^^^^^^^"
printf '[[service]]\nname = "S"\nvid = %s\n' 1 2 >out/wrong.toml
is_wrong "plan: 7 twice S" "out/wrong.toml:5:8: service \"S\": another service has the name S
    name = \"S\"
           ^^^
hint: service \"S\" has it at line 2"

begin "a peer that does not hang up is stopped by --seconds"
rm -f out/still.sock
peer out/still python3 examples/still.py out/still.sock
plan "$(socket out/still.sock)" >out/still.toml
runs out/still.all run --strict --progress --seconds 2 out/still.toml
wait
ended 4
head -n 1 out/still.all >out/still.report
says out/still.report "ended stopped"
has_line out/errors '0 frames entered, 0 left, 0 dropped, 0 copies refused, tick 0'

# The client of a control socket, with a run whose port waits for a peer. Port 2 of West is a customer's.
begin "control"
rm -f out/net.control
timeout 60 "$program" run --control out/net.control examples/control.toml >out/wait.report &
until [ -S out/wait.sock ] || ! kill -0 $! 2>/dev/null; do sleep 0.05; done
printf 'counts\n' >out/wait.commands
runs out/wait.answer control out/net.control - <out/wait.commands
ended 0
has_line out/wait.answer 'bridge West refused 0 ticks 0'
runs out/control.expected control out/net.control counts -- down West 1 -- up West 2 -- stop
ended 4
same out/control.expected examples/control.expected
wait
says out/wait.report "ended stopped
port east entered 0 left 0 filtered 0
port west entered 0 left 0 filtered 0
link trunk ab taken 0 lost 0 ba taken 0 lost 0
forest yes"
missing out/net.control
missing out/wait.sock

begin "control without a run"
runs out/wait.answer control out/net.control stop
ended 3
says out/wait.answer "fault: path"
says out/errors "error: cannot connect to out/net.control: no run listens there
hint: start one by \`pbnet run FILE --control out/net.control\`"

begin "run sockets.toml"
peer out/peer python3 examples/peer.py
runs out/sockets.report run examples/sockets.toml
wait
ended 0
same out/sockets.report examples/sockets.report
same out/peer examples/peer.expected

# One end of the E-Line waits for its peer at a socket of its own, and replaces one that another run left.
begin "run listener.toml"
peer out/caller python3 examples/caller.py
python3 -c 'import socket; socket.socket(socket.AF_UNIX).bind("out/west.sock")'
runs out/listener.report run examples/listener.toml
wait
ended 0
same out/listener.report examples/sockets.report
same out/caller examples/peer.expected
missing out/west.sock

# Frames in VXLAN and frames alone. A datagram of another network is dropped and reported.
begin "run tunnel.toml"
peer out/tunnel python3 examples/tunnel.py
runs out/tunnel.report run --seconds 2 examples/tunnel.toml
wait
ended 0
same out/tunnel.report examples/tunnel.report
same out/tunnel examples/peer.expected
says out/errors "port west: 1 datagrams dropped: other-network"

# Other hosts reach no port, unless the network is allowed.
begin "run without --allow-network"
sed 's/127.0.0.1:47893/0.0.0.0:47893/' examples/tunnel.toml >out/exposed.toml
runs out/exposed.report run --seconds 1 out/exposed.toml
ended 3
says out/exposed.report "fault: path"
says out/errors "error: port east: bind 0.0.0.0:47893: not a loopback address: --allow-network allows it"
runs out/exposed.report run --seconds 1 --allow-network out/exposed.toml
ended 0

# The peer takes nothing before the run is over. With --linger it gets all frames, and without it the loss is reported.
slow() {
    rm -f out/slow.sock
    peer out/slow python3 examples/slow.py out/slow.sock 2
    runs out/slow.json run --strict --linger "$1" --format json out/slow.toml
    wait
}
frames=$(python3 -c 'print(", ".join(["\"ffffffffffff0200000001010800" + "00" * 1886 + "\""] * 200))')
{
    printf '[network]\nring = 4096\n\n'
    plan "$(socket out/slow.sock)\nqueue = 4096" "queue = 4096\nin = [$frames]" | sed 's/^address.*/&\nqueue = 4096/'
} >out/slow.toml
begin "a slow peer, with --linger 20000"
slow 20000
ended 0
says out/errors ""
has_line out/slow 380400
begin "a slow peer, with --linger 0"
slow 0
ended 4
has_line out/errors 'port C1: [0-9]* frames not written'
has_line out/slow.json '      "what": "frames not written"'
written+=(out/slow.json)

# A link of the ring fails by an event, and another by the control socket. Frames take the other way.
begin "run ring-under-load.toml"
rm -f out/ring.control
peer out/load python3 examples/load.py
runs out/ring.all run --control out/ring.control --seconds 60 examples/ring-under-load.toml
wait
ended 0
same out/load examples/load.expected
head -n 1 out/ring.all >out/ring.report
tail -n 2 out/ring.all >>out/ring.report
says out/ring.report "ended stopped
forest yes
settled yes"
missing out/ring.control

begin "documents and plans by their schemas"
told=0
plans=(examples/*.toml)
for it in examples/broken/*.toml; do
    # (this one breaks the rules that the schema has)
    [ "$it" = examples/broken/errors.toml ] || plans+=("$it")
done
python3 examples/schemas.py "${written[@]}" "${plans[@]}" 2>out/errors || told=$?
if [ "$told" = 2 ]; then
    cat out/errors >&2
    name=
else
    ended 0
fi

finish
