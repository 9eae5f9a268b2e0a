"""a ring of six under load whose run is stopped for a while, and goes on"""
import pauses

from hostile_parts.attack import PROGRAM

CASES = [(10, 0.5), (10, 3), (100, 0.5), (100, 3), (10, 30), (100, 30)]


def attack(part):
    assert pauses.PROGRAM == PROGRAM
    for number in range(part.times(len(CASES))):
        tick_ms, seconds = CASES[number % len(CASES)]
        figures, why = pauses.pause(tick_ms, seconds)
        kind = f"pauses of {seconds} s, tick_ms {tick_ms}"
        part.judge(kind, "; ".join(why) or None)
        part.note(kind, figures)
