#!/usr/bin/env python3
"""make_flights.py - the radio signal of a made airfield with arrivals and departures, for dump1090.

  make_flights.py [--seconds S] [--seed N]

One aircraft begins each minute, and all behave by turns as KINDS says. They send positions, velocities and identifications as often
as the standard says: on the ground each half second while they move, and each five seconds while they stand. Writes a signal as
that of make_signal.py. The seed stands for a receiver: it decides the noise, and which frames are too weak to be heard. The flights
are always the same. The time at which the signal begins is written to standard error. Needs python3.
"""
import argparse
import collections
import functools
import heapq
import math
import random
import sys
import time
from fractions import Fraction

import make_airfield
import make_signal
import make_stream

SITE = 52.31, 4.76
RUNWAY = 700  # metres north of the site, from 1,500 m west of it to 1,500 m east
KNOT = 1852 / 3600
RATE = 300  # slots for frames, a second
INTERVALS = {"position": 0.5, "velocity": 0.5, "identity": 5}
# From one time to another, from one place to another (metres to the east and to the north, feet). On the ground feet are None.
Leg = collections.namedtuple("Leg", "begin end start stop heard")


def movement(knots):
    """The code of a speed on the ground."""
    if knots < 2:
        return 1
    steps = (2, 13, 0.5), (15, 39, 1), (70, 94, 2), (100, 109, 5), (175, 124, 1000)
    least, code, size = max(it for it in steps if it[0] <= knots)
    return code + int((knots - least) / size)


class Flight(make_stream.Plane):
    """An aircraft with its legs."""

    def __init__(self, number, begin):
        super().__init__(number, make_stream.Rng(number))
        self.addr, self.gillham, self.air = 0x484000 + number, False, False
        self.random, self.first_byte, self.now = random.Random(number), 0x8D, begin
        self.place, self.legs = None, []

    def at(self, east, north, feet=None):
        self.place = east, north, feet

    def go(self, seconds, east=None, north=None, feet=None, heard=0.8):
        """A leg to a place, or where it is. Heard says how many of its frames a receiver hears."""
        stop = self.place if east is None else (east, north, feet)
        self.legs.append(Leg(self.now, self.now + seconds, self.place, stop, heard))
        self.now, self.place = self.now + seconds, stop

    def move_to(self, leg, moment):
        """Takes the place and the speed of a moment of a leg."""
        share = (moment - leg.begin) / (leg.end - leg.begin)
        east, north = (a + (b - a) * share for a, b in zip(leg.start[:2], leg.stop[:2]))
        self.lat = SITE[0] + north / make_airfield.METRES
        self.lon = SITE[1] + east / make_airfield.METRES / math.cos(math.radians(SITE[0]))
        self.ve, self.vn = (round((b - a) / (leg.end - leg.begin) / KNOT) for a, b in zip(leg.start[:2], leg.stop[:2]))

    def frame(self, kind, leg, moment):
        """A frame of a kind, as hexadecimal digits. There is no velocity on the ground."""
        self.move_to(leg, moment)
        if kind == "identity":
            return self.squitter(make_stream.me_ident(self))
        if leg.stop[2] is not None:
            share = (moment - leg.begin) / (leg.end - leg.begin)
            self.alt = leg.start[2] + (leg.stop[2] - leg.start[2]) * share
            self.vr = round((leg.stop[2] - leg.start[2]) / (leg.end - leg.begin) * 60)
            return self.squitter(make_stream.me_pos(self) if kind == "position" else make_stream.me_vel(self))
        if kind == "velocity":
            return None
        self.odd ^= 1
        bins = make_airfield.encoded(Fraction(self.lat), Fraction(self.lon), self.odd)
        track = round(math.atan2(self.ve, self.vn) / math.tau * 128) % 128
        code = movement(math.hypot(self.ve, self.vn))
        return self.squitter(7 << 51 | code << 44 | 1 << 43 | track << 36 | self.odd << 34 | bins[0] << 17 | bins[1])

    def squitter(self, message):
        return make_stream.close(bytes([self.first_byte]) + self.addr.to_bytes(3, "big") + message.to_bytes(7, "big"), 0)

    def frames(self):
        """The frames, each with its time and how likely a receiver hears it."""
        due = {kind: self.legs[0].begin + self.random.random() for kind in INTERVALS}
        for leg in self.legs:
            stands = leg.stop[2] is None and leg.start[:2] == leg.stop[:2]
            every = {kind: 5 if stands else size for kind, size in INTERVALS.items()}
            due = {kind: min(max(it, leg.begin), leg.begin + every[kind]) for kind, it in due.items()}
            while due[kind := min(due, key=due.get)] < leg.end:
                frame = self.frame(kind, leg, due[kind]) if leg.heard else None
                if frame:
                    yield due[kind], frame, leg.heard
                due[kind] += every[kind] * self.random.uniform(0.8, 1.2)

    def stays(self):
        """From when to when it is heard, without a silence of a minute."""
        first = last = None
        for leg in filter(lambda it: it.heard, self.legs):
            if last is not None and leg.begin > last + 60:
                yield first, last
                first = None
            first, last = leg.begin if first is None else first, leg.end
        yield first, last

    def changes(self):
        """The times at which it says that it is on the ground and said before that it isn't, or the other way round."""
        was = None
        for leg in self.legs:
            is_ground = leg.stop[2] is None
            if leg.heard and was not in (None, is_ground):
                yield leg.begin, "landed" if is_ground else "took off"
            was = is_ground if leg.heard else was


def approach(it, seconds=250):
    it.at(-18000, RUNWAY, 3100)
    it.go(seconds, -1200, RUNWAY, 30, 0.7)


def touch_down(it, heard=0.8):
    """From the runway's beginning to its end, slower and slower."""
    it.at(-1200, RUNWAY)
    for east, seconds in ((-500, 12), (0, 12), (400, 15), (700, 20)):
        it.go(seconds, east, RUNWAY, heard=heard)


def taxi_in(it, heard=0.8):
    it.go(90, 700, 300, heard=heard)
    it.go(120, -400, 300, heard=heard)


def take_off(it):
    it.go(60, 700, 300)
    it.go(150, -1400, 300)
    it.go(60, -1400, RUNWAY)
    it.go(15, -1000, RUNWAY)
    it.go(15, 0, RUNWAY)
    climb(it)


def climb(it):
    it.at(0, RUNWAY, 30)
    it.go(60, 4500, RUNWAY, 2000)
    it.go(180, 20000, RUNWAY, 9000, 0.6)


def circle(it):
    """From the runway in a wide circle back to it, in the air."""
    it.at(*it.place[:2], 30)
    for seconds, east, north, feet in ((60, 3000, RUNWAY, 800), (45, 3000, 2500, 1000), (120, -4500, 2500, 1000), (45, -4500, RUNWAY, 700)):
        it.go(seconds, east, north, feet)
    it.go(70, -1200, RUNWAY, 30)


def arrival(it):
    """Lands, and stands until its crew has gone."""
    approach(it)
    touch_down(it)
    taxi_in(it)
    it.go(240)


def departure(it):
    it.at(-400, 300)
    it.go(120)
    take_off(it)


def turn_round(it):
    """Lands, is silent at its stand for seven minutes, and takes off."""
    arrival(it)
    it.go(420, heard=0)
    take_off(it)


def circuits(it):
    """A light aircraft, on the ground for some seconds each time."""
    it.at(-400, 300)
    it.go(60)
    it.go(60, -1000, 300)
    it.go(30, -1000, RUNWAY)
    it.go(20, 0, RUNWAY)
    for seconds in (5, 9, 3):
        circle(it)
        it.at(-1200, RUNWAY)
        it.go(seconds, -1200 + 40 * seconds, RUNWAY)
    circle(it)
    touch_down(it)


def go_around(it):
    """Is 30 feet above the runway, and lands at the second try."""
    approach(it)
    circle(it)
    touch_down(it)
    taxi_in(it)


def hidden(it):
    """Isn't heard from a minute before it lands until it stands."""
    it.at(-18000, RUNWAY, 3100)
    it.go(190, -5200, RUNWAY, 850, 0.7)
    it.go(60, -1200, RUNWAY, 30, 0)
    touch_down(it, 0)
    taxi_in(it, 0)
    it.go(300)


def never_on_the_ground(it):
    """Lands, and sends an altitude for ever."""
    approach(it)
    it.at(-1200, RUNWAY, 0)
    it.go(60, 700, RUNWAY, 0)
    it.go(300)


def over_flight(it):
    it.at(-60000, 20000, 35000)
    it.go(520, 60000, 20000, 35000, 0.6)


def vehicle(it):
    it.first_byte = 0x90  # a device that isn't a transponder, with an address of its own
    it.at(0, 50)
    for _ in range(5):
        it.go(100, 800, 50)
        it.go(30)
        it.go(100, 0, 50)


def parked(it):
    it.at(-600, -350)
    it.go(3600)


KINDS = (parked, arrival, departure, turn_round, over_flight, departure, circuits, arrival, go_around, departure, hidden, arrival,
         vehicle, departure, never_on_the_ground)


@functools.cache
def flights(seconds):
    """The flights of so many seconds."""
    made = []
    for number in range(seconds // 60):
        made.append(Flight(number, 60 * number))
        KINDS[number % len(KINDS)](made[-1])
    return made


def slots(seconds, heard):
    """For each slot of the signal the frame that a receiver hears in it, or None."""
    sent = heapq.merge(*(it.frames() for it in flights(seconds)))
    waiting = collections.deque()
    coming = next(sent, None)
    for number in range(seconds * RATE):
        while coming and coming[0] * RATE <= number:
            if heard.random() < coming[2]:
                waiting.append(coming[1])
            coming = next(sent, None)
        yield waiting.popleft() if waiting else None


def main():
    a = argparse.ArgumentParser(description=__doc__, formatter_class=argparse.RawDescriptionHelpFormatter)
    a.add_argument("--seconds", type=int, default=3600)
    a.add_argument("--seed", type=int, default=1)
    o = a.parse_args()
    signal = slots(o.seconds, random.Random(o.seed))
    print(time.time(), file=sys.stderr, flush=True)
    make_signal.write_signal(signal, RATE, o.seed)


if __name__ == "__main__":
    main()
