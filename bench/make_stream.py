#!/usr/bin/env python3
"""make_stream.py - a deterministic, realistic stream of Mode S frames as AVR lines.

Every frame is made here from field values and closed with a right parity
(own CRC-24 code), so every line is valid unless --bad asks for broken ones.
The same arguments give the same bytes on every machine: the random numbers are
those of a 64-bit xorshift written below, and the motion uses only + - * / floor.

Default mix (per cent): DF17 36 (15 position even/odd by turns, 15 velocity,
2 identification, 4 types that carry no field here), DF11 24 (half of them with
an interrogator code), DF0 16, DF4 9, DF5 5, DF20 5, DF21 3, DF16 2.
Each aircraft first sends one DF11 squitter, so that the overlaid replies that
follow speak for an aircraft that the receiver knows.

  make_stream.py --lines 1000000 -o stream.avr
  make_stream.py --lines 200000 --bad 5 --modeac 2 --ticks 1000 --shows 50000 -o replay.in

--ticks and --shows add the `+MS` and `?` lines of `groundstation replay`;
leave them out for the peers, which do not know these lines.
"""
import argparse
import sys
from math import floor

POLY = 0xFFF409


def _table():
    t = []
    for i in range(256):
        c = i << 16
        for _ in range(8):
            c = ((c << 1) ^ POLY) & 0xFFFFFF if c & 0x800000 else c << 1
        t.append(c)
    return t


TABLE = _table()


def crc24(data):
    c = 0
    for b in data:
        c = ((c << 8) & 0xFFFFFF) ^ TABLE[(c >> 16) ^ b]
    return c


def close(body, overlay):
    """body: the bytes before the parity; gives the whole frame as hex digits."""
    return (body + (crc24(body) ^ overlay).to_bytes(3, "big")).hex().upper()


class Rng:
    def __init__(self, seed):
        self.s = (seed * 0x9E3779B97F4A7C15 + 0x1234567) & 0xFFFFFFFFFFFFFFFF or 1
        for _ in range(8):
            self.next()

    def next(self):
        x = self.s
        x ^= (x << 13) & 0xFFFFFFFFFFFFFFFF
        x ^= x >> 7
        x ^= (x << 17) & 0xFFFFFFFFFFFFFFFF
        self.s = x
        return x

    def below(self, n):
        return (self.next() >> 11) % n

    def unit(self):
        return (self.next() >> 11) / 9007199254740992.0


# transition latitudes (1/1e8 degree), as docs/FORMATS.md gives them
NLT = [int(w) for w in """
1047047130 1482817437 1818626357 2102939493 2354504487 2582924707
2793898710 2991135686 3177209708 3353993436 3522899598 3685025108
3841241892 3992256684 4138651832 4280914012 4419454951 4554626723
4686733252 4816039128 4942776439 5067150166 5189342469 5309516153
5427817472 5544378444 5659318756 5772747354 5884763776 5995459277
6104917774 6213216659 6320427479 6426616523 6531845310 6636171008
6739646774 6842322022 6944242631 7045451075 7145986473 7245884545
7345177442 7443893416 7542056257 7639684391 7736789461 7833374083
7929428225 8024923213 8119801349 8213956981 8307199445 8399173563
8489166191 8575541621 8653536998 8700000000""".split()]


def nl(lat):
    a = abs(lat) * 1e8
    lo, hi = 0, len(NLT)
    while lo < hi:                      # first entry that is at least |lat|
        mid = (lo + hi) // 2
        if NLT[mid] >= a:
            hi = mid
        else:
            lo = mid + 1
    return 1 + len(NLT) - lo


def cpr(lat, lon, odd):
    d = 360.0 / (60 - odd)
    yz = floor(131072.0 * ((lat - d * floor(lat / d)) / d) + 0.5)
    rlat = d * (floor(lat / d) + yz / 131072.0)
    dl = 360.0 / max(nl(rlat) - odd, 1)
    xz = floor(131072.0 * ((lon - dl * floor(lon / dl)) / dl) + 0.5)
    return yz & 0x1FFFF, xz & 0x1FFFF


def ac13(alt, gillham):
    """altitude in feet -> the 13 bits C1 A1 C2 A2 C4 A4 M B1 Q B2 D2 B4 D4"""
    if not gillham:
        n = (alt + 1000) // 25
        return (n >> 5 & 0x3F) << 7 | (n >> 4 & 1) << 5 | 1 << 4 | n & 0xF
    h = alt // 100 + 13                  # = 5 F + H with H from 1 to 5
    f, c = divmod(h - 1, 5)
    c += 1
    if f & 1:
        c = 6 - c
    g = f ^ f >> 1                       # D2 D4 A1 A2 A4 B1 B2 B4
    cc = {1: 1, 2: 3, 3: 2, 4: 6, 5: 4}[c]   # C1 C2 C4
    b = [g >> (7 - i) & 1 for i in range(8)]
    d2, d4, a1, a2, a4, b1, b2, b4 = b
    c1, c2, c4 = cc >> 2 & 1, cc >> 1 & 1, cc & 1
    v = 0
    for x in (c1, a1, c2, a2, c4, a4, 0, b1, 0, b2, d2, b4, d4):
        v = v << 1 | x
    return v


def id13(sq):
    a, b, c, d = sq >> 9 & 7, sq >> 6 & 7, sq >> 3 & 7, sq & 7
    v = 0
    for x in (c & 1, a & 1, c >> 1 & 1, a >> 1 & 1, c >> 2 & 1, a >> 2 & 1, 0,
              b & 1, d & 1, b >> 1 & 1, d >> 1 & 1, b >> 2 & 1, d >> 2 & 1):
        v = v << 1 | x
    return v


CHARS = "#ABCDEFGHIJKLMNOPQRSTUVWXYZ##### ###############0123456789######"
AIRLINES = "KLM DLH BAW AFR SAS RYR EZY UAE SWR AUA IBE TAP FIN LOT THY".split()


class Plane:
    def __init__(self, i, r):
        self.addr = (0x3C0000 + r.below(0x0F0000)) // 101 * 101 + i % 101
        self.lat = 42.0 + 16.0 * r.unit()
        self.lon = -6.0 + 22.0 * r.unit()
        self.ve = r.below(881) - 440
        self.vn = r.below(881) - 440
        if abs(self.ve) + abs(self.vn) < 150:
            self.ve += 200
        self.alt = 2000 + 25 * r.below(1560)
        self.vr = (r.below(81) - 40) * 64
        self.gillham = r.below(10) == 0
        self.air = r.below(20) == 0      # sends airspeed (subtype 3)
        self.hdg = r.below(1024)
        self.sq = r.below(4096)
        call = AIRLINES[r.below(len(AIRLINES))] + str(1 + r.below(9999))
        self.call = call
        v = 0
        for ch in (call + "        ")[:8]:
            v = v << 6 | CHARS.index(ch)
        self.callbits = v
        self.odd = r.below(2)
        self.t = 0.0

    def move(self, t):
        dt = t - self.t
        self.t = t
        self.lat += self.vn * dt / 216000.0
        self.lon += self.ve * dt / 216000.0 * 1.55      # about 1/cos(50 degrees)
        if not 40.0 < self.lat < 60.0:
            self.vn = -self.vn
            self.lat = min(max(self.lat, 40.0), 60.0)
        if not -10.0 < self.lon < 20.0:
            self.ve = -self.ve
            self.lon = min(max(self.lon, -10.0), 20.0)
        self.alt += self.vr * dt / 60.0
        if not 1000.0 < self.alt < 41000.0:
            self.vr = -self.vr
            self.alt = min(max(self.alt, 1000.0), 41000.0)

    def feet(self):
        return int(self.alt) // 100 * 100 if self.gillham else int(self.alt) // 25 * 25


def df11(p, iid):
    return close(bytes([0x5D]) + p.addr.to_bytes(3, "big"), iid)


def es(p, me):
    return close(bytes([0x8D]) + p.addr.to_bytes(3, "big") + me.to_bytes(7, "big"), 0)


def me_ident(p):
    return 4 << 51 | 3 << 48 | p.callbits


def me_pos(p):
    y, x = cpr(p.lat, p.lon, p.odd)
    a = ac13(p.feet(), p.gillham)
    a12 = (a >> 7) << 6 | a & 0x3F
    me = 11 << 51 | a12 << 36 | p.odd << 34 | y << 17 | x
    p.odd ^= 1
    return me


def me_vel(p):
    v = abs(p.vr) // 64 + 1
    vert = 1 << 20 | (p.vr < 0) << 19 | v << 10 | 12   # source bit 36, sign 37, value, height difference
    if p.air:
        spd = min(1022, abs(p.ve) + abs(p.vn) // 2)
        return 19 << 51 | 3 << 48 | 1 << 42 | p.hdg << 32 | 1 << 31 | (spd + 1) << 21 | vert
    return (19 << 51 | 1 << 48 | (p.ve < 0) << 42 | (abs(p.ve) + 1) << 32
            | (p.vn < 0) << 31 | (abs(p.vn) + 1) << 21 | vert)


def me_other(p, r):
    k = r.below(3)
    if k == 0:                                   # TC 31 operational status, version 2
        return 31 << 51 | 2 << 13 | 0x2300 << 30 & 0x7FFFFFFFFFFFF
    if k == 1:                                   # TC 29 target state
        return 29 << 51 | 1 << 49 | (int(p.alt) // 32 & 0x7FF) << 36
    return 28 << 51 | 1 << 48                    # TC 28 no emergency


def mb(p, r):
    k = r.below(5)
    if k < 2:                                    # BDS 2,0 identification
        return 0x20 << 48 | p.callbits
    if k == 2:                                   # BDS 1,0
        return 0x10 << 48 | 0x030A80F500000 >> 4
    return 0                                     # nothing to report


def short(df, first13, code, p):
    w = df << 27 | first13 << 13 | code
    return close(w.to_bytes(4, "big"), p.addr)


def long_(df, first13, code, mid, p):
    w = df << 27 | first13 << 13 | code
    return close(w.to_bytes(4, "big") + mid.to_bytes(7, "big"), p.addr)


def frame(kind, p, r):
    if kind == "pos":
        return es(p, me_pos(p))
    if kind == "vel":
        return es(p, me_vel(p))
    if kind == "id":
        return es(p, me_ident(p))
    if kind == "oth":
        return es(p, me_other(p, r))
    if kind == "11":
        return df11(p, 0)
    if kind == "11i":
        return df11(p, 1 + r.below(79))
    if kind == "0":
        return short(0, 0x0C0 << 2, ac13(p.feet(), p.gillham), p)
    if kind == "4":
        return short(4, 0, ac13(p.feet(), p.gillham), p)
    if kind == "5":
        return short(5, 0, id13(p.sq), p)
    if kind == "16":
        return long_(16, 0x0C0 << 2, ac13(p.feet(), p.gillham), 0x30 << 48, p)
    if kind == "20":
        return long_(20, 0, ac13(p.feet(), p.gillham), mb(p, r), p)
    return long_(21, 0, id13(p.sq), mb(p, r), p)


MIX = [("pos", 150), ("vel", 150), ("id", 20), ("oth", 40), ("11", 120), ("11i", 120),
       ("0", 160), ("4", 90), ("5", 50), ("20", 50), ("21", 30), ("16", 20)]


def main():
    a = argparse.ArgumentParser(description=__doc__, formatter_class=argparse.RawDescriptionHelpFormatter)
    a.add_argument("--lines", type=int, default=1000000, help="AVR lines (default 1000000)")
    a.add_argument("--aircraft", type=int, default=100)
    a.add_argument("--rate", type=float, default=0.0,
                   help="lines per simulated second (default 10 an aircraft)")
    a.add_argument("--seed", type=int, default=1)
    a.add_argument("--form", choices=["star", "at"], default="star", help="`*..;` or `@counter..;`")
    a.add_argument("--crlf", action="store_true", help="end lines with CR LF")
    a.add_argument("--lower", action="store_true", help="lower-case digits")
    a.add_argument("--bad", type=float, default=0.0, help="per cent of frames with 1 to 3 flipped bits")
    a.add_argument("--modeac", type=float, default=0.0, help="per cent of Mode A/C or heartbeat lines")
    a.add_argument("--ticks", type=int, default=0, help="simulated ms from one `+` line to the next")
    a.add_argument("--shows", type=int, default=0, help="AVR lines from one `?` line to the next")
    a.add_argument("-o", "--out", default="-")
    o = a.parse_args()
    r = Rng(o.seed)
    planes, seen = [], set()
    while len(planes) < o.aircraft:
        p = Plane(len(planes), r)
        if p.addr not in seen:
            seen.add(p.addr)
            planes.append(p)
    kinds = [k for k, n in MIX for _ in range(n)]
    rate = o.rate or 10.0 * o.aircraft
    out = sys.stdout if o.out == "-" else open(o.out, "w", newline="")
    end = ";\r\n" if o.crlf else ";\n"
    buf, n, tick = [], 0, 0
    while n < o.lines:
        t = n / rate
        if o.ticks and t * 1000 >= tick + o.ticks:
            tick += o.ticks
            buf.append("+%d\n" % tick)
        if o.modeac and r.below(1000000) < o.modeac * 10000:
            h = "0000" if r.below(2) else "%04X" % r.below(65536)
        else:
            if n < o.aircraft:
                p = planes[n]
                h = df11(p, 0)
            else:
                p = planes[r.below(o.aircraft)]
                p.move(t)
                h = frame(kinds[r.below(1000)], p, r)
            if o.bad and n >= o.aircraft and r.below(1000000) < o.bad * 10000:
                v = int(h, 16)
                for _ in range(1 + r.below(3)):
                    v ^= 1 << r.below(len(h) * 4 - 5)    # never in the DF
                h = "%0*X" % (len(h), v)
        if o.lower:
            h = h.lower()
        if o.form == "at":
            buf.append("@%012X%s%s" % (int(t * 12e6) & 0xFFFFFFFFFFFF, h, end))
        else:
            buf.append("*" + h + end)
        n += 1
        if o.shows and n % o.shows == 0:
            buf.append("?\n")
        if len(buf) >= 20000:
            out.write("".join(buf))
            buf.clear()
    out.write("".join(buf))
    out.flush()


if __name__ == "__main__":
    main()
