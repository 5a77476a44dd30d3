#!/usr/bin/env python3
"""oracle/compare songs [PART..]: asks the tool (tool/) for the starts and stops of Standard MIDI Files, and compares what it prints.

    rules      the small files of oracle/songs-rules.txt, and what they give
    damaged    every cut and every flipped bit of a small song: each run ends with an answer, and with the reader's below
    files      the files of the Debian packages of PACKAGES, fetched by apt-get download into target/songs (they are not kept here): each file as it
               is, and each track under a header of format 0

Without PART all three. The answers are held to a reader written here from the Standard MIDI Files 1.0 document, in exact whole numbers, and of good
files also to the times, tempos and notes that `midicsv` (of Debian) reads. The tool is target/bin/tool (./play
makes it), or the file that the variable TOOL names."""
import itertools, os, re, subprocess, sys

ROOT = os.path.dirname(os.path.dirname(os.path.abspath(__file__)))
WORK = os.path.join(ROOT, 'target', 'songs')
PACKAGES = ('mma freedink-data python3-pyo yoshimi-data csound-doc songwrite freewheeling pinball-table-hurd-data').split()
RATE = 48000
TOOL = os.environ.get('TOOL', os.path.join(ROOT, 'target', 'bin', 'tool'))


# ---- the reader

class Fault(Exception):
    pass


def fault(number, at):
    raise Fault('R %d %s' % (number, at))


class Bytes:
    """The bytes of a file up to an end; one that is due behind it is a fault there."""

    def __init__(self, file, at, end):
        self.file, self.at, self.end = file, at, end

    def take(self, n):
        if self.at + n > self.end:
            fault(12, max(self.at, self.end))
        self.at += n
        return self.file[self.at - n:self.at]

    def number(self, n):
        return int.from_bytes(self.take(n), 'big')

    def quantity(self):
        value = 0
        for _ in range(4):
            byte = self.take(1)[0]
            value = value << 7 | byte & 127
            if byte < 128:
                return value
        fault(12, self.at - 1)

    def data(self):
        byte = self.take(1)[0]
        if byte > 127:
            fault(12, self.at - 1)
        return byte


def events(track):
    """Yields (delta, kind, value, last byte) of each event of a track, up to its end."""
    running = None
    while True:
        if track.at >= track.end:
            fault(12, track.end)
        delta = track.quantity()
        status = track.take(1)[0]
        if status in (0xf0, 0xf7, 0xff):
            running = None
            kind = None
            if status == 0xff:
                kind = track.take(1)[0]
                if kind > 127:
                    fault(12, track.at - 1)
            size = track.quantity()
            if kind == 0x51 and size < 3:
                fault(12, track.at - 1)
            body = track.take(size)
            if kind == 0x2f:
                return
            if kind == 0x51:
                yield delta, 'tempo', int.from_bytes(body[:3], 'big'), track.at - 1
            else:
                yield delta, 'other', None, track.at - 1
            continue
        if status > 0xf0:
            fault(12, track.at - 1)
        if status < 128:
            if running is None:
                fault(12, track.at - 1)
            track.at -= 1
        else:
            running = status
        first = track.data()
        second = track.data() if running & 0xe0 != 0xc0 else None
        if running < 0xa0:
            yield delta, 'note', (first, running & 15, second if running >= 0x90 else 0), track.at - 1
        else:
            yield delta, 'other', None, track.at - 1


def line(frame, note, channel, velocity):
    return '%d start %d %d %d' % (frame, note, channel, velocity) if velocity else '%d stop %d %d' % (frame, note, channel)


def chunk(reader, seen):
    """The next track's length, or None at the end of the file."""
    while reader.at < len(reader.file):
        name = reader.take(4)
        if name == b'MThd' or name == b'MTrk' and seen:
            fault(12, reader.at - 1)
        size = reader.number(4)
        if name == b'MTrk':
            return size
        reader.take(size)
    return None


def track_of(reader):
    """Yields (tick, kind, value, last byte) of each event of the next track."""
    length = chunk(reader, False)
    if length is None:
        fault(12, len(reader.file))
    track = Bytes(reader.file, reader.at, min(reader.at + length, len(reader.file)))
    tick = 0
    for delta, kind, value, last in events(track):
        tick += delta
        yield tick, kind, value, last
    if track.at < track.end or reader.at + length > len(reader.file):
        fault(12, track.at)
    reader.at = track.at


def lines_of(timed, rate, division):
    out, tempo, total, now = [], 500000, 0, 0
    for tick, kind, value, last in timed:
        total += (tick - now) * tempo
        now = tick
        frame = rate * total // (division * 10 ** 6)
        if kind == 'tempo':
            tempo = value
        elif kind == 'note':
            if frame > 2 ** 48:
                fault(14, last)
            out.append(line(frame, *value))
    return out


def song(file, rate):
    """The lines of a good file; a Fault of any other."""
    reader = Bytes(file, 0, len(file))
    if reader.take(4) != b'MThd':
        fault(12, 3)
    size = reader.number(4)
    if size < 6:
        fault(12, 7)
    form = reader.number(2)
    if form > 1:
        fault(13, 9)
    count = reader.number(2)
    if count == 0 or form == 0 and count > 1:
        fault(12, 11)
    division = reader.number(2)
    if division >= 0x8000:
        fault(13, 13)
    if division == 0:
        fault(12, 13)
    reader.take(size - 6)
    if form == 0:
        out = lines_of(track_of(reader), rate, division)
        chunk(reader, True)
        return out
    # of format 1 all tracks are judged, then merged by tick and then by track; the byte of a start that is late isn't told
    tracks = [[(tick, kind, value, '?') for tick, kind, value, _ in track_of(reader)] for _ in range(count)]
    chunk(reader, True)
    return lines_of(sorted(itertools.chain(*tracks), key=lambda event: event[0]), rate, division)


def by_reader(file, rate=RATE):
    try:
        return song(file, rate)
    except Fault as f:
        return [str(f)]


# ---- the port

def by_port(file, rate=RATE):
    """The lines of the tool; where it refuses, with the byte that standard error names."""
    run = subprocess.run([TOOL, '--cues', '--song', '-', '--rate', str(rate)], input=file, capture_output=True, timeout=60)
    lines = run.stdout.decode().split('\n')[:-1]
    refused = len(lines) == 1 and lines[0].startswith('R')
    if run.returncode != (1 if refused else 0):
        return ['status %d' % run.returncode]
    if refused:
        place = re.match(rb'play: the song is refused: byte (\d+): .+\n$', run.stderr)
        lines = [lines[0] + (' ' + place.group(1).decode() if place else ' ?')]
    elif run.stderr != (b'play: a song of format 1: its %d tracks are played as one\n' % int.from_bytes(file[10:12], 'big') if file[9] else b''):
        lines.append('standard error: %r' % run.stderr)
    return lines


class Tally:
    def __init__(self):
        self.equal = self.bad = 0
        self.counts = {}

    def same(self, what, got, wanted):
        if got == wanted:
            self.equal += 1
        else:
            self.bad += 1
            pairs = [p for p in zip(got + ['-'], wanted + ['-']) if p[0] != p[1]]
            print('%s: %d lines, not %d: %s, not %s' % (what, len(got), len(wanted), *(pairs[0] if pairs else ('-', '-'))))

    def count(self, answer, lines=True):
        key = ' '.join(answer[0].split()[:2]) if answer and answer[0].startswith('R') else 'good'
        self.counts[key] = self.counts.get(key, 0) + 1
        if key == 'good' and lines:
            self.counts['starts and stops'] = self.counts.get('starts and stops', 0) + len(answer)

    def told(self, name):
        print('%s: %d equal, %d not%s' % (name, self.equal, self.bad, ''.join('; %d %s' % (n, k) for k, n in sorted(self.counts.items()))))
        return self.bad


# ---- the small files

def chunk_of(events):
    return b'MTrk' + len(events).to_bytes(4, 'big') + events


def bytes_of(text):
    text = re.sub(r'\bH\b', '4D546864 00000006 0000 0001 0060', text)
    text = re.sub(r'\bD\b', '4D546864 00000006 0000 0001', text)
    text = re.sub(r'\bF\b', '4D546864 00000006 0001', text)
    out = b''
    for i, part in enumerate(re.split(r'[\[\]]', text)):
        out += chunk_of(bytes.fromhex(part)) if i % 2 else bytes.fromhex(part)
    return out


def rules():
    tally = Tally()
    for n, text in enumerate(open(os.path.join(ROOT, 'oracle', 'songs-rules.txt')), 1):
        text = text.split('#')[0].rstrip('\n')
        if '=' not in text:
            continue
        file, answer = text.split('=')
        wanted = [a.strip() for a in answer.split('/') if a.strip()]
        file = bytes_of(file)
        tally.same('rule of line %d, reader' % n, by_reader(file), wanted)
        got = by_port(file)
        tally.same('rule of line %d' % n, got, wanted)
        tally.count(got)
    return tally.told('rules')


def damaged():
    tally = Tally()
    good = open(os.path.join(ROOT, 'oracle', 'songs-small.mid'), 'rb').read()
    files = [good[:n] for n in range(len(good))]
    files += [good[:i] + bytes([good[i] ^ 1 << bit]) + good[i + 1:] for i in range(len(good)) for bit in range(8)]
    for n, file in enumerate(files):
        got = by_port(file)
        tally.same('damaged copy %d' % n, got, by_reader(file))
        tally.count(got, False)
    return tally.told('damaged')


# ---- files from elsewhere

def fetched(name):
    """The folder with a Debian package's files."""
    folder = os.path.join(WORK, name)
    if not os.path.isdir(folder):
        os.makedirs(WORK, exist_ok=True)
        got = subprocess.run(['apt-get', 'download', name], cwd=WORK, capture_output=True, text=True)
        debs = [f for f in os.listdir(WORK) if f.startswith(name + '_') and f.endswith('.deb')]
        if not debs:
            print('%s: not fetched: %s' % (name, got.stderr.strip()))
            return None
        subprocess.run(['dpkg-deb', '-x', debs[0], name], cwd=WORK, check=True)
    return folder


def by_midicsv(tool, file, rate=RATE):
    """The lines by midicsv's reading of times, tempos and notes; None where it gives up."""
    run = subprocess.run([tool], input=file, capture_output=True)
    if run.returncode != 0:
        return None
    rows = [r.split(', ') for r in run.stdout.decode('latin-1').split('\n')]
    division = next(int(r[5]) for r in rows if len(r) > 5 and r[2] == 'Header')
    out, tempo, total, now = [], 500000, 0, 0
    rows = [r for r in rows if len(r) > 2 and r[1].isdigit() and r[0] != '0']
    for r in sorted(rows, key=lambda r: int(r[1])):
        total += (int(r[1]) - now) * tempo
        now = int(r[1])
        if r[2] == 'Tempo':
            tempo = int(r[3])
        elif r[2] in ('Note_on_c', 'Note_off_c'):
            velocity = int(r[5]) if r[2] == 'Note_on_c' else 0
            out.append(line(rate * total // (division * 10 ** 6), int(r[4]), int(r[3]), velocity))
    return out


def tracks_of(file):
    """Each track chunk of a file under a header of format 0, with the file's division."""
    at = 8 + int.from_bytes(file[4:8], 'big')
    while at + 8 <= len(file):
        size = int.from_bytes(file[at + 4:at + 8], 'big')
        if file[at:at + 4] == b'MTrk':
            yield file[:4] + bytes([0, 0, 0, 6, 0, 0, 0, 1]) + file[12:14] + file[at:at + 8 + size]
        at += 8 + size


def files():
    tool = fetched('midicsv')
    tool = tool and os.path.join(tool, 'usr', 'bin', 'midicsv')
    whole, apart, other = Tally(), Tally(), Tally()
    formats = {}
    for package in PACKAGES:
        for folder, _, names in os.walk(fetched(package) or ''):
            for name in sorted(names):
                path = os.path.join(folder, name)
                if not name.lower().endswith(('.mid', '.midi', '.kar')) or os.path.islink(path):
                    continue
                file = open(path, 'rb').read()
                if file[:4] != b'MThd':
                    continue
                formats[file[9]] = formats.get(file[9], 0) + 1
                asked = [(whole, path, file)] + [(apart, '%s, track %d' % (path, n), t) for n, t in enumerate(tracks_of(file))]
                for tally, what, song_file in asked:
                    got = by_port(song_file)
                    tally.same(what, got, by_reader(song_file))
                    tally.count(got)
                    if tool and not (got and got[0].startswith('R')):
                        read = by_midicsv(tool, song_file)
                        if read is None:
                            other.count(['R midicsv-gave-up'])
                        else:
                            other.same(what + ', midicsv', got, read)
    print('files by format: %s' % ', '.join('%d of format %d' % (n, f) for f, n in sorted(formats.items())))
    return whole.told('files') + apart.told('tracks') + other.told('midicsv')


PARTS = {'rules': rules, 'damaged': damaged, 'files': files}
asked = sys.argv[1:] or list(PARTS)
if any(a not in PARTS for a in asked):
    sys.exit(__doc__)
bad = sum(PARTS[a]() for a in asked)
sys.exit(1 if bad else 0)
