#!/usr/bin/env python3
"""The comparison's side of `oracle/compare merges`, which says how it is called: asks the port to merge songs of format 1, and compares number and bytes.

The songs are those of RULES, COUNT that are made here (2000 unless given), each with copies that are cut or have a byte changed, asked with room enough and with too little,
and, where asked for, the files of the Debian packages that oracle/songs.py names. The merger here is written from the Standard MIDI Files 1.0 document: it sorts all events of all
tracks by tick and then by track, and writes each with its status byte. It fails where anything differs."""
import os, random, subprocess, sys

ROOT = os.path.dirname(os.path.dirname(os.path.abspath(__file__)))


class Refused(Exception):
    pass


def refuse(number=12):
    raise Refused(number)


def vlq(n):
    out = [n & 127]
    while n > 127:
        n >>= 7
        out.append(n & 127 | 128)
    return bytes(reversed(out))


class Bytes:
    def __init__(self, file, at, end):
        self.file, self.at, self.end = file, at, end

    def take(self, n):
        if self.at + n > self.end:
            refuse()
        self.at += n
        return self.file[self.at - n:self.at]

    def quantity(self):
        value = 0
        for _ in range(4):
            byte = self.take(1)[0]
            value = value << 7 | byte & 127
            if byte < 128:
                return value
        refuse()


def events(b):
    """The (tick, bytes) of a track, each with its status, and the tick of its end."""
    tick, running, out = 0, None, []
    while True:
        tick += b.quantity()
        status = b.take(1)[0]
        if status in (0xf0, 0xf7, 0xff):
            running = None
            start = b.at - 1
            kind = b.take(1)[0] if status == 0xff else None
            if kind is not None and kind > 127:
                refuse()
            size = b.quantity()
            if kind == 0x51 and size < 3:
                refuse()
            b.take(size)
            if kind == 0x2f:
                if b.at != b.end:
                    refuse()
                return out, tick
            out.append((tick, b.file[start:b.at]))
            continue
        if status > 0xf0:
            refuse()
        if status < 128:
            if running is None:
                refuse()
            b.at -= 1
        else:
            running = status
        data = b.take(1 if 0xc0 <= running < 0xe0 else 2)
        if max(data) > 127:
            refuse()
        out.append((tick, bytes([running]) + data))


def merged(file):
    b = Bytes(file, 0, len(file))
    if b.take(4) != b'MThd':
        refuse()
    size = int.from_bytes(b.take(4), 'big')
    if size < 6:
        refuse()
    if int.from_bytes(b.take(2), 'big') != 1:
        refuse(13)
    count = int.from_bytes(b.take(2), 'big')
    if count == 0:
        refuse()
    division = b.take(2)
    if division[0] > 127:
        refuse(13)
    if division == b'\0\0':
        refuse()
    b.take(size - 6)
    tracks = []
    while b.at < len(file):
        name = b.take(4)
        if name == b'MThd' or name == b'MTrk' and len(tracks) == count:
            refuse()
        size = int.from_bytes(b.take(4), 'big')
        body = Bytes(file, b.at, b.at + size)
        b.take(size)
        if name == b'MTrk':
            tracks.append(events(body))
    if len(tracks) != count:
        refuse()
    out, now = b'', 0
    for tick, track, place, event in sorted((tick, n, place, event) for n, t in enumerate(tracks) for place, (tick, event) in enumerate(t[0])):
        out += vlq(tick - now) + event
        now = tick
    out += vlq(max(t[1] for t in tracks) - now) + b'\xff\x2f\0'
    return b'MThd\0\0\0\6\0\0\0\1' + division + b'MTrk' + len(out).to_bytes(4, 'big') + out


def by_merger(file):
    try:
        return 0, merged(file)
    except Refused as r:
        return r.args[0], b''


# ---- songs

# tracks, and what they are merged into: those of crates/song_merge/proofs/Examples.antt
RULES = [
    (['00 903C40 10 803C40 00 FF2F00', '00 904040 10 804040 00 FF2F00'], '00 903C40 00 904040 10 803C40 00 804040 00 FF2F00'),
    (['00 FF510307A120 60 FF510303D090 00 FF2F00', '30 903C40 60 803C40 00 FF2F00'], '00 FF510307A120 30 903C40 30 FF510303D090 30 803C40 00 FF2F00'),
    (['00 903C40 10 3C00 00 FF2F00', '08 914040 08 4000 00 FF2F00'], '00 903C40 08 914040 08 903C00 00 914000 00 FF2F00'),
    (['00 903C40 10 3C00 05 FF2F00'], '00 903C40 10 903C00 05 FF2F00'),
    (['00 903C40 10 803C40 00 FF2F00', '8120 FF2F00'], '00 903C40 10 803C40 8110 FF2F00'),
    (['05 900101 00 FF2F00', '05 910202 00 FF2F00', '05 920303 00 FF2F00'], '05 900101 00 910202 00 920303 00 FF2F00'),
]


def chunk(text):
    body = bytes.fromhex(text)
    return b'MTrk' + len(body).to_bytes(4, 'big') + body


def of_rule(tracks, merged):
    return (b'MThd\0\0\0\6\0\1' + len(tracks).to_bytes(2, 'big') + b'\0\x60' + b''.join(chunk(t) for t in tracks),
            b'MThd\0\0\0\6\0\0\0\1\0\x60' + chunk(merged))



def padded(rng, n):
    """A quantity, now and then longer than it has to be."""
    q = vlq(n)
    return bytes([128] * rng.randint(1, 4 - len(q))) + q if len(q) < 4 and rng.random() < .1 else q


def track(rng, events):
    out, running = b'', None
    for _ in range(events):
        out += padded(rng, rng.choice([0, 0, 1, 1, 2, 127, 128, 300, 16383, 16384, 2097151, 2097152, 2 ** 28 - 1]))
        kind = rng.random()
        if kind < .75:
            status = running if running and rng.random() < .6 else rng.randint(0x80, 0xef)
            if status != running or rng.random() < .3:
                out += bytes([status])
            running = status
            out += bytes(rng.randint(0, 127) for _ in range(1 if 0xc0 <= status < 0xe0 else 2))
            continue
        running = None
        if kind < .85:
            body = bytes(rng.randint(0, 255) for _ in range(rng.choice([3, 3, 4, 9])))
            out += b'\xff\x51' + padded(rng, len(body)) + body
        else:
            body = bytes(rng.randint(0, 255) for _ in range(rng.choice([0, 1, 2, 5, 130])))
            head = rng.choice([b'\xf0', b'\xf7', b'\xff\x01', b'\xff\x58', b'\xff\x7f'])
            out += head + padded(rng, len(body)) + body
    out += padded(rng, rng.choice([0, 1, 5, 1000, 2 ** 28 - 1])) + b'\xff\x2f' + rng.choice([b'\0', b'\0', b'\1\7'])
    return b'MTrk' + len(out).to_bytes(4, 'big') + out


def alien(rng):
    body = bytes(rng.randint(0, 255) for _ in range(rng.randint(0, 9)))
    return b'XFIH' + len(body).to_bytes(4, 'big') + body if rng.random() < .2 else b''


def song(rng):
    count = rng.choice([1, 1, 2, 2, 3, 4, 7])
    more = bytes(rng.randint(0, 1) * [1, 2])
    out = b'MThd' + (6 + len(more)).to_bytes(4, 'big') + b'\0\1' + count.to_bytes(2, 'big') + rng.choice([b'\0\x60', b'\1\xe0', b'\x7f\xff']) + more
    for _ in range(count):
        out += alien(rng) + track(rng, rng.choice([0, 1, 2, 5, 20]))
    return out + alien(rng)


def damaged(rng, file):
    at = rng.randrange(len(file))
    kind = rng.random()
    if kind < .3:
        return file[:at]
    if kind < .6:
        at = rng.randrange(min(len(file), 40))
    return file[:at] + bytes([rng.choice([file[at] ^ 1 << rng.randrange(8), rng.randint(0, 255)])]) + file[at + 1:]


def found():
    """The songs of the packages that oracle/songs.py names."""
    text = open(os.path.join(ROOT, 'oracle', 'songs.py')).read()
    packages = text.split("PACKAGES = ('")[1].split("'")[0].split()
    work = os.path.join(ROOT, 'target', 'songs')
    for package in packages:
        folder = os.path.join(work, package)
        if not os.path.isdir(folder):
            os.makedirs(work, exist_ok=True)
            subprocess.run(['apt-get', 'download', package], cwd=work, capture_output=True)
            debs = [f for f in os.listdir(work) if f.startswith(package + '_') and f.endswith('.deb')]
            if not debs:
                print('%s: not fetched' % package)
                continue
            subprocess.run(['dpkg-deb', '-x', debs[0], package], cwd=work, check=True)
        for at, _, names in os.walk(folder):
            for name in sorted(names):
                path = os.path.join(at, name)
                if name.lower().endswith(('.mid', '.midi', '.kar')) and not os.path.islink(path):
                    file = open(path, 'rb').read()
                    if file[:4] == b'MThd' and len(file) <= 1048576:
                        yield file


def main():
    port, words = sys.argv[1:3], sys.argv[3:]
    seed, count = int(words[0]) if words else 1, int(words[1]) if len(words) > 1 else 2000
    rng = random.Random(seed)
    rules = [of_rule(*r) for r in RULES]
    if any(by_merger(file) != (0, out) for file, out in rules):
        sys.exit('the merger breaks a rule')
    real = list(found()) if words[2:] else []
    made = [song(rng) for _ in range(count)]
    files = [(f, 2 * len(f)) for f in [r[0] for r in rules] + real + made]
    files += [(damaged(rng, f), 2 * len(f)) for f in made for _ in range(3)]
    files += [(damaged(rng, f), 2 * len(f)) for f in real]
    files += [(f, rng.randrange(2 * len(f))) for f in made]
    asked = b''.join(len(f).to_bytes(4, 'little') + room.to_bytes(4, 'little') + f for f, room in files)
    run = subprocess.run(['sh', '-c', 'ulimit -s 65536 2>/dev/null; exec "$@"', 'sh'] + port, input=asked, capture_output=True)
    if run.returncode != 0:
        sys.exit('status %d: %r' % (run.returncode, run.stderr[:500]))
    answers, at, bad, numbers = run.stdout, 0, 0, {}
    for n, (file, room) in enumerate(files):
        number, length = (int.from_bytes(answers[at + i:at + i + 4], 'little') for i in (0, 4))
        at += 8
        got = answers[at:at + length] if number == 0 else b''
        at += len(got)
        want, out = by_merger(file)
        # an event is written where five bytes more than it has are free, and the end of a track where seven are
        if want == 0 and number == 8:
            right = room < len(out) + 5 and length == 2 * len(file)
        else:
            right = (number, got) == (want, out) and len(out) <= max(room, 0) and (number == 0 or length == 0)
        numbers[number] = numbers.get(number, 0) + 1
        if not right:
            bad += 1
            if bad < 10:
                print('song %d of %d bytes, room %d: %d, %d bytes, not %d, %d bytes' % (n, len(file), room, number, len(got), want, len(out)))
    print('%d files of packages, %d made; answers %s; %d wrong' % (len(real), len(made), numbers, bad))
    return bad or at != len(answers)


sys.exit(1 if main() else 0)
