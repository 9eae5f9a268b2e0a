# Functions of the scripts of bench/: source it from the top of the repository.

# Prints the machine, its load and the date, which belong to each figure.
print_machine() {
    local model load
    model=$(sed -n 's/^model name[^:]*: //p' /proc/cpuinfo 2>/dev/null | head -n 1)
    load=$(cut -d ' ' -f 1 /proc/loadavg 2>/dev/null || echo unknown)
    echo "machine: ${model:-unknown processor}, $(nproc) processors, load $load, $(date -u +%F)"
}

# Has ./pbnet prove and build the program if that is due, and names the program that it runs in $program.
find_program() {
    ./pbnet show >/dev/null
    program=release/pbnet
    ./pbnet --version | grep -q released || program=out/pbnet
}

# Ends with an error if the command rt of the Rattle toolchain is missing.
need_rt() {
    if ! command -v rt >/dev/null 2>&1; then
        echo "error: rt is not on PATH" >&2
        echo "hint: rt is the command of the Rattle toolchain" >&2
        exit 1
    fi
}

# Proves and builds the program that copies captures, runs it on these two files, and names it in $copy.
build_copy() {
    need_rt
    copy=$PWD/crates/pb_bench_ports/out/pb_bench_ports
    if ! (cd crates/pb_bench_ports && rt run -- "$1" "$2") >"$2.log" 2>&1; then
        echo "error: pb_bench_ports was not built; its last lines:" >&2
        tail -n 20 -- "$2.log" >&2
        exit 1
    fi
}

# Checks whether a tool is installed. Root on Debian installs it first if it is missing.
install_tool() {
    if ! command -v "$1" >/dev/null 2>&1 && command -v apt-get >/dev/null 2>&1 && [ "$(id -u)" = 0 ]; then
        DEBIAN_FRONTEND=noninteractive apt-get install -y "$1" >/dev/null 2>&1 \
            || { apt-get update >/dev/null 2>&1 && DEBIAN_FRONTEND=noninteractive apt-get install -y "$1" >/dev/null 2>&1; } \
            || true
    fi
    command -v "$1" >/dev/null 2>&1
}
