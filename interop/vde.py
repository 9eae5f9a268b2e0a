#!/usr/bin/env python3
"""Compares pbnet with VDE: a socket port of `pbnet run` is plugged to a VDE switch, and that is joined to a second one."""

import socket
import subprocess

import captures
import common
from streams import Listener, Peer, exchange

# The most octets of a frame that a VDE switch carries. It cuts longer ones.
MOST = 1518
CUT = "a VDE switch cuts a frame after 1,518 octets; pbnet carries each frame whole"
ALL = "a VDE switch carries every address; a bridge does not carry this one"


class Switches:
    """Two VDE switches, joined by a link."""

    def __init__(self, folder):
        self.folder = folder
        for name in ("one", "two"):
            folder.start("vde_switch", "-s", folder.path / name, stdin=subprocess.PIPE)
            common.wait_for(folder.path / name / "ctl")
        folder.start("dpipe", "vde_plug", folder.path / "one", "=", "vde_plug", folder.path / "two")

    def plug(self, name, stream):
        """Plugs a stream of frames to a switch, and returns the process of the plug."""
        process = self.folder.start("vde_plug", self.folder.path / name, stdin=stream, stdout=stream)
        stream.close()
        return process

    def peer(self, name):
        here, there = socket.socketpair()
        self.plug(name, there)
        return Peer(here)


def start_run(folder):
    """Starts `pbnet run` between two listeners. Returns the process and both listeners."""
    listeners = [Listener(folder.path / name) for name in ("near.sock", "far.sock")]
    plan = captures.WIRE.format(near=captures.socket_port("near.sock"), far=captures.socket_port("far.sock"))
    (folder.path / "plan.toml").write_text(plan)
    return folder.start(common.PROGRAM, "run", "plan.toml", stdout=subprocess.PIPE), listeners


def meet(near, far):
    """Sends frames until one passes both switches: they are ready then."""
    for _ in range(100):
        near.send(captures.frame(64))
        if far.receive(0.2) is not None:
            break
    while far.receive(0.5) is not None:
        pass


def length_rows(table, near, far):
    there = [captures.frame(length) for length in range(14, MOST + 1)]
    back = [captures.frame(length, to=b"\2\0\0\0\0\1", source=b"\2\0\0\0\0\2") for length in range(14, MOST + 1)]
    for name, one, two, frames in (("to the switches", near, far, there), ("from the switches", far, near, back)):
        came = exchange(one, two, frames, window=4)
        table.row(f"lengths 14 to 1,518, {name}, in order", len(frames), sum(a == b for a, b in zip(came, frames)))
    for length in (MOST + 1, 1992):
        frame = captures.frame(length, source=b"\2\0\0\0\0\3")
        near.send(frame)
        came = far.receive(5) or b""
        table.row(f"{length:,} octets", f"{length} octets", f"{len(came)} octets", CUT)


def address_rows(table, near, far, switches):
    """Sends frames through pbnet and both switches, and through the switches alone."""
    alone = switches.peer("one")
    meet(alone, far)
    rows = [
        ("broadcast", "ffffffffffff", None),
        ("customers' BPDUs, -00", "0180c2000000", None),
        ("LLDP, -0E", "0180c200000e", ALL),
        ("port authentication, -03", "0180c2000003", ALL),
    ]
    for name, to, reason in rows:
        frame = captures.frame(60, to=bytes.fromhex(to), source=b"\2\0\0\0\0\4")
        results = []
        for peer in (near, alone):
            peer.send(frame)
            came = far.receive(1.5)
            results.append("passes" if came == frame else "does not pass" if came is None else "is changed")
        table.row(name, *results, reason)


def rows(table, folder):
    switches = Switches(folder)
    running, listeners = start_run(folder)
    near = Peer(listeners[0].accept())
    plug = switches.plug("one", listeners[1].accept())
    far = switches.peer("two")
    meet(near, far)
    length_rows(table, near, far)
    address_rows(table, near, far, switches)
    plug.terminate()
    near.shut()
    report = running.communicate(timeout=120)[0].decode().split("\n")
    table.row("the run ends", "ended drained, forest yes", f"{report[0]}, {report[-2]}")


def main():
    table = common.Table(
        f"VDE {common.package_version('vde-switch')}: a port and two switches"
    )
    with common.Folder() as folder:
        rows(table, folder)
    common.finish(table)


if __name__ == "__main__":
    main()
