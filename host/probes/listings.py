#!/usr/bin/env python3
"""listings.py SEED COUNT FOLDER: writes event listings (docs/LISTING.md), FOLDER/1.bin and so on: calls of each kind, some of them refused, with every
field of the parameters at values that are heard apart. Each sixth is of plain voices for the most part, as a backing track has them. One in ten is damaged."""
import random
import struct
import sys


def real(x):
    return struct.pack('>f', x)


SPECIAL = [0.0, -0.0, 1.0, -1.0, 0.5, float('nan'), float('inf'), -float('inf'), 1e-40, 3.4e38, 0.3, 0.75, 2.0, 4096.0]


class Listing:
    def __init__(self, r):
        self.r = r
        self.second = r.random() < 0.5
        self.channels = r.choice([1, 2])
        self.bytes = bytes([2 if self.second else 1, self.channels, r.randrange(2)])

    def record(self, kind, fields=b''):
        self.bytes += struct.pack('>H', len(fields) + 1) + bytes([kind]) + fields

    def any_real(self):
        return self.r.choice(SPECIAL) if self.r.random() < 0.15 else self.r.uniform(-2, 2)

    def parameters(self):
        r = self.r
        rate = r.choice([8000.0, 44100.0, 48000.0, r.uniform(1000, 96000)])
        tempo = r.choice([120.0, 90.0, r.uniform(30, 300), self.any_real()])
        beats = r.choice([4, 3, 7, 1, 0])
        unit = r.choice([4, 8, 2, 1, 0])
        kind = r.randrange(6 if self.second else 5)
        # A loop of up to 60 samples, in what the kind counts.
        samples = r.uniform(0, 60)
        quarter = rate * 60 / tempo if 1 < abs(tempo) < 1000 else 1.0
        length = [samples / quarter, samples, samples / rate, samples / quarter, r.uniform(0, 1.05), samples / quarter / 4][kind]
        if r.random() < 0.1:
            length = self.any_real()
        ramps = [r.choice([0, 0, 1, 3, 10, 100, 16777216, 16777217]) for _ in range(2)]
        self.record(0, struct.pack('>II', *ramps) + bytes([r.randrange(2), r.randrange(3), kind])
                    + real(length) + real(r.choice([1.0, 0.75, 0.5, self.any_real()])) + real(r.choice([1.0, -1.0, self.any_real()]))
                    + bytes([r.randrange(3)]) + real(r.choice([1.0, 0.5, self.any_real()])) + real(rate) + real(tempo)
                    + struct.pack('>II', beats, unit))

    def frames(self, count):
        for _ in range(count):
            self.record(6, b''.join(real(self.any_real()) for _ in range(self.channels)))

    def call(self):
        r = self.r
        note = bytes([r.randrange(6), r.choice([0, 0, 1, 15, 16])])
        k = r.random()
        if k < 0.04:
            self.parameters()
        elif k < 0.20:
            self.record(1, note + real(r.choice([0.0, 0.5, 1.0, r.random(), self.any_real()])) + real(self.any_real()))
        elif k < 0.28:
            self.record(2, note)
        elif k < 0.32:
            self.record(3, note + real(self.any_real()))
        elif k < 0.34:
            self.record(4)
        elif k < 0.36:
            self.record(5)
        elif k < 0.365:
            self.record(7)
        else:
            self.frames(r.choice([1, 1, 1, 20]))

    def made(self):
        r = self.r
        if r.random() < 0.9:
            self.parameters()
            self.record(4)
            self.frames(r.randrange(1, 60))
            self.record(5)
        for _ in range(r.randrange(50, 200)):
            self.call()
        if r.random() < 0.1:
            at = r.randrange(len(self.bytes))
            self.bytes = r.choice([self.bytes[:at], self.bytes[:at] + bytes([r.randrange(256)]) + self.bytes[at + 1:]])
        return self.bytes


class Backing(Listing):
    """Loops and single plays at speed 1, of whole lengths from whole starts, in longer rows of frames; and what ends that, now and then."""

    def parameters(self):
        r = self.r
        if r.random() < 0.2:
            return super().parameters()
        kind = r.choice([1, 4])
        length = r.randrange(1, 60) if kind == 1 else r.choice([1.0, 1.0, 0.5])
        self.record(0, struct.pack('>II', *[r.choice([0, 0, 10, 100]) for _ in range(2)]) + bytes([r.randrange(2), r.choice([0, 1, 1]), kind])
                    + real(length) + real(1.0) + real(1.0) + bytes([r.randrange(3)]) + real(r.choice([1.0, 0.5])) + real(44100.0) + real(120.0)
                    + struct.pack('>II', 4, 4))

    def call(self):
        r = self.r
        k = r.random()
        if k < 0.2:
            super().call()
        elif k < 0.5:
            self.record(1, bytes([r.randrange(6), 0]) + real(r.choice([0.0, 0.0, 0.5, 1.0])) + real(r.choice([1.0, 0.5])))
        elif k < 0.6:
            self.record(2, bytes([r.randrange(6), 0]))
        else:
            self.frames(r.choice([1, 20, 50]))


seed, count, folder = int(sys.argv[1]), int(sys.argv[2]), sys.argv[3]
for i in range(1, count + 1):
    with open('%s/%d.bin' % (folder, i), 'wb') as out:
        out.write((Listing if i % 6 else Backing)(random.Random(seed * 1000003 + i)).made())
