#!/usr/bin/env python3
"""make_signal.py - a radio signal of Mode S squitters, for dump1090.

  make_signal.py [--seconds S] [--rate R] [--aircraft A] [--seed N]

Writes 2.4 million samples a second to standard output, each a byte of I and one of Q: R squitters a second, positions and
velocities of A moving aircraft by turns, in noise and of four strengths. The addresses begin with the byte N, and no frame comes
twice in a minute. The same arguments give the same bytes. Needs python3.
"""
import argparse
import itertools
import math
import random
import sys

from make_stream import Plane, Rng, es, me_pos, me_vel

PREAMBLE, SAMPLES = "1010000101000000", 288


def waves(level, phase):
    """The twelve samples of each ten half microseconds that are on or off."""
    table = {}
    for on in (format(number, "010b") for number in range(1024)):
        shares = [sum(max(0, min(at + 1, 1.2 * half + 1.2) - max(at, 1.2 * half)) for half in range(10) if on[half] == "1")
                  for at in range(12)]
        table[on] = bytes(round(127.5 + level * share * it(phase)) for share in shares for it in (math.cos, math.sin))
    return table


def frames(o):
    """The frames as hexadecimal digits, without an end."""
    rng = Rng(o.seed)
    planes = [Plane(number, rng) for number in range(o.aircraft)]
    for turn in range(1 << 62):
        for number, plane in enumerate(planes):
            plane.addr = o.seed << 16 | number
            plane.move(turn * o.aircraft / o.rate)
            # The last byte of a velocity, the difference of heights, is a count here.
            yield es(plane, me_vel(plane) & ~0xFF | turn // 2 & 0xFF if turn % 2 else me_pos(plane))


def write_signal(slots, rate, seed):
    """Writes so many slots a second: a frame in each, anywhere in it, or noise alone where it is None."""
    rng, slot = random.Random(seed), 2400000 // rate
    noise = bytes(rng.randrange(124, 132) for _ in range(1 << 20))
    tables = [waves(level, rng.uniform(0, 6)) for level in (40, 70, 100, 125)]
    for frame in slots:
        if frame is None:
            start = 2 * rng.randrange(1 << 18)
            sys.stdout.buffer.write(noise[start : start + 2 * slot])
            continue
        bits = format(int(frame, 16), "0112b")
        on = PREAMBLE + "".join("10" if bit == "1" else "01" for bit in bits)
        table, start, before = rng.choice(tables), 2 * rng.randrange(1 << 18), rng.randrange(slot - SAMPLES)
        sys.stdout.buffer.write(noise[start : start + 2 * before])
        sys.stdout.buffer.write(b"".join(table[on[at : at + 10]] for at in range(0, 240, 10)))
        sys.stdout.buffer.write(noise[start : start + 2 * (slot - SAMPLES - before)])


def main():
    a = argparse.ArgumentParser(description=__doc__, formatter_class=argparse.RawDescriptionHelpFormatter)
    a.add_argument("--seconds", type=int, default=10)
    a.add_argument("--rate", type=int, default=300)
    a.add_argument("--aircraft", type=int, default=100)
    a.add_argument("--seed", type=int, default=0x40)
    o = a.parse_args()
    write_signal(itertools.islice(frames(o), o.seconds * o.rate), o.rate, o.seed)


if __name__ == "__main__":
    main()
