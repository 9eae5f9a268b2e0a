"""Sends commands to the control socket of a run."""

import socket

# The lines that end an answer.
VERDICTS = ("ok", "no such", "bad")
# The seconds after which a run that does not answer counts as disconnected.
PATIENCE = 5


def ask(path, commands):
    """Returns the answer to each command: its lines, of which the last is the verdict.

    Raises OSError if no run listens at the path, or if it disconnects before its last answer.
    """
    with socket.socket(socket.AF_UNIX) as peer:
        peer.settimeout(PATIENCE)
        peer.connect(path)
        peer.sendall("".join(f"{command}\n" for command in commands).encode())
        peer.shutdown(socket.SHUT_WR)
        text = b"".join(iter(lambda: peer.recv(65536), b"")).decode("utf-8", "replace")
    answers = split_answers(text)
    if len(answers) != len(commands):
        raise ConnectionError("the run disconnected")
    return answers


def split_answers(text):
    """Returns the complete answers of a text, each as a list of lines."""
    answers, lines = [], []
    for line in text.splitlines():
        lines.append(line)
        if line in VERDICTS:
            answers.append(lines)
            lines = []
    return answers


def read_tree(lines):
    """Returns the role and the state of each port between bridges, by bridge and port. The role may be None."""
    ports = {}
    for line in lines:
        words = line.split(" ")
        if words[0] == "port" and len(words) in (4, 5):
            role = words[3] if len(words) == 5 else None
            ports[words[1], int(words[2])] = (role, words[-1])
    return ports


def read_counts(lines):
    """Returns the numbers of each customer port and of each bridge, by name."""
    ports, bridges = {}, {}
    for line in lines:
        words = line.split(" ")
        if words[0] == "port" and words[2::2] == ["entered", "left"]:
            ports[words[1]] = (int(words[3]), int(words[5]))
        elif words[0] == "bridge" and words[2::2] == ["refused", "ticks"]:
            bridges[words[1]] = (int(words[3]), int(words[5]))
    return ports, bridges
