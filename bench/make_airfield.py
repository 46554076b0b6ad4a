"""make_airfield.py - aircraft of a made airfield: parked, taxiing, arriving and departing.

Of each five aircraft two are parked and two taxi. The fifth is in the air, on the line of a runway that leads east. One on the
ground sends surface positions with speed and track, even and odd by turns, of type codes 5 to 8. They are encoded by exact
fractions, by the equations of docs/FORMATS.md.
"""
import math
from fractions import Fraction

import make_stream

BINS = 1 << 17  # of a zone
METRES = 1852 * 60  # of a degree of latitude
NORTH, EAST, SOUTH, WEST = 0, 32, 64, 96  # tracks, in 1/128 turn
STANDS = (-350, SOUTH), (-600, NORTH)  # each row: metres north of the site, track
TAXIWAYS = (300, WEST), (50, EAST)
RUNWAY = 700  # metres north of the site
PARKED = 1  # the movement of an aircraft that stands
KNOTS_IN_THE_AIR = 120
GLIDE = 0.172  # feet of altitude for each metre from the site, to the east or west: three degrees


def encoded(lat, lon, odd):
    """The bins of a point on the ground, by exact fractions: 17 bits of those of a zone with 2^19."""
    def bin_of(angle, size):
        return math.floor(angle % size / size * 4 * BINS + Fraction(1, 2))
    band = Fraction(360, 60 - odd)
    y = bin_of(lat, band)
    rounded = band * (lat // band + Fraction(y, 4 * BINS))
    x = bin_of(lon, Fraction(360, max(make_stream.nl(rounded) - odd, 1)))
    return y % BINS, x % BINS


def squitter(address, message):
    """A squitter from the ground (capability 4), as hexadecimal digits."""
    return make_stream.close(bytes([0x8C]) + address.to_bytes(3, "big") + message.to_bytes(7, "big"), 0)


def surface_frame(address, movement, track, odd, bins, type_code=7):
    """A surface position. The track is in 1/128 turn."""
    return squitter(address, type_code << 51 | movement << 44 | 1 << 43 | track << 36 | odd << 34 | bins[0] << 17 | bins[1])


class Plane(make_stream.Plane):
    """An aircraft that moves east or west. In the air its movement is None."""

    def __init__(self, number, random, site):
        super().__init__(number, random)
        self.site, self.number = site, number
        self.vn, self.vr, self.air, self.gillham = 0, 0, False, False
        self.sq %= 0o7000  # no emergency
        column, kind = divmod(number, 5)
        if kind < 2:
            north, self.track = STANDS[kind]
            self.put(250 * column - 625, north)
            self.ve, self.movement = 0, PARKED
        elif kind < 4:
            north, self.track = TAXIWAYS[kind - 2]
            self.put(400 * column - 1000, north)
            self.movement = 13 + random.below(26)  # 2 to 14.5 knots, by halves
            self.ve = (2 + (self.movement - 13) / 2) * (1 if self.track == EAST else -1)
        else:
            self.put(1000 * column - 5000, RUNWAY)
            self.ve, self.movement = KNOTS_IN_THE_AIR, None
            self.move(0)

    def put(self, east, north):
        """Puts it so many metres from the site."""
        self.lat = self.site[0] + north / METRES
        self.lon = self.site[1] + east / METRES / math.cos(math.radians(self.site[0]))

    def move(self, t):
        super().move(t)
        if self.movement is None:
            east = (self.lon - self.site[1]) * METRES * math.cos(math.radians(self.site[0]))
            self.alt, self.vr = 100 + GLIDE * abs(east), 640 if east > 0 else -640

    def surface_position(self):
        self.odd ^= 1
        bins = encoded(Fraction(self.lat), Fraction(self.lon), self.odd)
        return surface_frame(self.addr, self.movement, self.track, self.odd, bins, 5 + self.number % 4)


def frame(kind, plane, random):
    """A frame of a kind of `make_stream.MIX`. On the ground most are surface positions."""
    if plane.movement is None:
        return make_stream.frame(kind, plane, random)
    if kind == "id":
        return squitter(plane.addr, make_stream.me_ident(plane))
    if kind == "11":
        return make_stream.close(bytes([0x5C]) + plane.addr.to_bytes(3, "big"), 0)
    if kind == "5":
        return make_stream.short(5, 1 << 11, make_stream.id13(plane.sq), plane)  # flight status 1
    return plane.surface_position()
