#!/usr/bin/env bash
# Compares pbnet with other programs. Installs the Debian packages that the parts need, and runs each part. The exit status
# is 0 if each row of each table is alike or a listed difference.
#
#     interop/all.sh [PART..]     all parts, or these: differences survive diff balance eager comeback pauses view report
#                                 wireshark openvswitch rings vde speed linux hosts attach
#
# The program is ./pbnet, or that of the variable PBNET. The gate does not run this script.
set -eu
cd -- "$(dirname -- "$0")/.."

all=(differences survive diff balance eager comeback pauses view report wireshark openvswitch rings vde speed linux hosts attach)
parts=("$@")
[ "${#parts[@]}" -gt 0 ] || parts=("${all[@]}")
status=0

for part in "${parts[@]}"; do
    case " ${all[*]} " in
        *" $part "*) ;;
        *)
            echo "error: unknown part '$part'" >&2
            echo "usage: interop/all.sh [PART..]" >&2
            echo "hint: the parts are ${all[*]}" >&2
            exit 2
            ;;
    esac
done

# Prints the packages that a part needs.
packages_of() {
    echo python3
    case $1 in
        view | report) echo chromium ;;
        wireshark) echo tshark wireshark-common ;;
        openvswitch | rings) echo openvswitch-switch openvswitch-common ;;
        vde | speed) echo vde-switch vdeplug gcc libc6-dev ;;
        linux) echo gcc libc6-dev qemu-system-x86 busybox-static iproute2 cpio ;;
        hosts) echo iproute2 iputils-ping ethtool iperf3 tcpdump bridge-utils openvswitch-switch ;;
        attach)
            echo iproute2 iputils-ping ethtool tcpdump openvswitch-switch qemu-system-x86 busybox-static cpio
            echo vde-switch vdeplug
            ;;
    esac
}

# Prints the packages of the parts that are not installed, each once.
missing() {
    local name
    for name in $(for part in "${parts[@]}"; do packages_of "$part"; done | tr ' ' '\n' | sort -u); do
        dpkg-query -W -f '${Status}' "$name" 2>/dev/null | grep -q 'install ok installed' || echo "$name"
    done
}

install_missing() {
    local names
    mapfile -t names < <(missing)
    [ "${#names[@]}" -gt 0 ] || return 0
    apt-get update -q >&2
    DEBIAN_FRONTEND=noninteractive apt-get install -y -q --no-install-recommends "${names[@]}" >&2
}

install_missing
if [ -z "${PBNET-}" ]; then
    ./pbnet show >/dev/null
fi
for part in "${parts[@]}"; do
    printf '## %s, %s\n\n' "$part" "$(date -u +%F)"
    "interop/$part.py" || {
        echo "error: interop/$part.py failed" >&2
        status=1
    }
done
[ "$status" = 0 ] && echo "every row is alike or a listed difference"
exit "$status"
