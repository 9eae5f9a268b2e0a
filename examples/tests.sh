# The functions with which runs.sh runs the program and counts tests. runs.sh sources this file.
#
# A test is all that follows `begin`, up to the next `begin` or `end`. It prints `ok NAME`, or `FAILED NAME: WHY` and
# below it what the program printed on standard error.
# shellcheck shell=bash disable=SC2034,SC2154

passed=0
failed=0
name=
why=

begin() {
    end
    name=$1
    : >out/errors
}

# Fails the test, for this reason.
wrong() {
    why="${why:+$why; }$1"
}

# Prints and counts the test that was begun last.
end() {
    if [ -n "$why" ]; then
        failed=$((failed + 1))
        echo "FAILED $name: ${why//$'\n'/$'\n'    }"
        sed 's/^/    /' out/errors
    elif [ -n "$name" ]; then
        passed=$((passed + 1))
        echo "ok $name"
    fi
    name=
    why=
}

# Prints the counts, with a status of 0 if tests ran and all passed.
finish() {
    end
    echo "$passed passed, $failed failed"
    [ "$failed" = 0 ] && [ "$passed" != 0 ]
}

# Runs the program for 60 seconds at most: its standard output goes to a file, its standard error to out/errors, its exit
# status to `told`.
runs() {
    local output=$1
    shift
    told=0
    timeout -k 5 60 "$program" "$@" >"$output" 2>out/errors || told=$?
}

# The program ended with this status.
ended() {
    [ "$told" = "$1" ] || wrong "the exit status is $told, not $1"
}

# Two files are the same.
same() {
    cmp -s -- "$1" "$2" || wrong "$1 is not $2"
}

# Two documents are the same but for the version.
same_document() {
    local version='s/^  "version": .*/  "version"/'
    sed "$version" "$1" | cmp -s -- - <(sed "$version" "$2") || wrong "$1 is not $2"
}

# A file has this text, its last line feeds left out.
says() {
    [ "$(cat -- "$1")" = "$2" ] || wrong "$1 is not '$2' but '$(cat -- "$1")'"
}

# A document says what a report of this command says.
agrees() {
    python3 examples/documents.py "$@" 2>>out/errors || wrong "$3 does not agree with $2"
}

# A file has a line that this expression matches as a whole.
has_line() {
    grep -qx -- "$2" "$1" || wrong "$1 has no line '$2' but '$(cat -- "$1")'"
}

# There is no such file.
missing() {
    [ ! -e "$1" ] || wrong "$1 exists"
}

# Copies a report of `run` without the lines of links, whose counts of BPDUs differ from run to run.
without_links() {
    grep -v '^link ' "$1" >"$2" || wrong "$1 has no line but those of links"
}

# Starts a peer in the background for 60 seconds at most, with its output in a file, and waits until it listens.
peer() {
    local output=$1
    shift
    rm -f -- "$output"
    timeout 60 "$@" >"$output" &
    until grep -q listening "$output" 2>/dev/null || ! kill -0 $! 2>/dev/null; do sleep 0.05; done
}

# Prints a plan of one bridge, whose ports are rows of keys.
plan() {
    local number=0 row
    printf '[[bridge]]\nname = "B1"\naddress = "02-00-00-00-00-01"\n\n[[service]]\nname = "red"\nvid = 100\n'
    for row in "$@"; do
        number=$((number + 1))
        printf '\n[[port]]\nname = "C%s"\nbridge = "B1"\nport = %s\nservice = "red"\n%b\n' "$number" "$number" "$row"
    done
}

# Prints the keys of a capture port, and of a socket port.
capture() {
    printf 'kind = "capture"\\nread = "%s"\\nwrite = "%s"' "$1" "$2"
}
socket() {
    printf 'kind = "socket"\\npath = "%s"' "$1"
}
