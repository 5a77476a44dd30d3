# The comparison's side of `oracle/compare forms`, which says how it is called.
import io, math, os, random, shutil, struct, subprocess, sys, tempfile, wave
from fractions import Fraction

TAIL = bytes.fromhex("000000001000800000AA00389B71")
KINDS = [(1, 16), (1, 24), (1, 32), (3, 32), (3, 64)]


def chunk(name, body, pad=b"\0"):
    return name + struct.pack("<I", len(body)) + body + (pad if len(body) % 2 else b"")


def riff(chunks):
    return b"RIFF" + struct.pack("<I", 4 + len(chunks)) + b"WAVE" + chunks


def fmt(shape, tag, channels, rate, block, bits, valid, mask=0):
    body = struct.pack("<HHIIHH", 0xFFFE if shape == 40 else tag, channels, rate, rate * block % 2**32, block, bits)
    if shape == 18:
        body += struct.pack("<H", 0)
    if shape == 40:
        body += struct.pack("<HHIH", 22, valid, mask, tag) + TAIL
    return chunk(b"fmt ", body)


# ---- a reader of its own

def nearest(x):
    """The pattern of the float of 32 bits nearest to a fraction, by the list of neighbours that struct has."""
    sign, size = (1 << 31 if x < 0 else 0), abs(x)
    if size == 0:
        return sign
    top = math.floor(size).bit_length() - 1 if size >= 1 else -next(i for i in range(1, 2000) if size * 2**i >= 1)
    unit = max(top - 23, -149)
    scaled = size / Fraction(2) ** unit
    whole = scaled.numerator // scaled.denominator
    rest = scaled - whole
    whole += rest > Fraction(1, 2) or (rest == Fraction(1, 2) and whole % 2)
    if whole * Fraction(2) ** unit >= 2**128:
        return sign | 0x7F800000
    return sign | struct.unpack("<I", struct.pack("<f", math.ldexp(whole, unit)))[0]


def value(tag, bits, raw):
    if tag == 1:
        return nearest(Fraction(int.from_bytes(raw, "little", signed=True), 2 ** (bits - 1)))
    if bits == 32:
        return struct.unpack("<I", raw)[0]
    x = struct.unpack("<d", raw)[0]
    if math.isnan(x):
        return 0x7FC00000
    if math.isinf(x):
        return 0x7F800000 | (0x80000000 if x < 0 else 0)
    return nearest(Fraction(x)) | (0x80000000 if math.copysign(1, x) < 0 else 0)


def read(f):
    """rate, channels, words of a file of a known form, or None"""
    if len(f) < 12 or f[:4] != b"RIFF" or f[8:12] != b"WAVE" or struct.unpack("<I", f[4:8])[0] + 8 != len(f):
        return None
    at, seen = 12, {}
    while at < len(f):
        if len(f) - at < 8:
            return None
        name, size = f[at : at + 4], struct.unpack("<I", f[at + 4 : at + 8])[0]
        if len(f) - at - 8 < size + size % 2:
            return None
        if name in (b"fmt ", b"data", b"fact"):
            if name in seen or (name == b"data" and b"fmt " not in seen):
                return None
            seen[name] = f[at + 8 : at + 8 + size]
        at += 8 + size + size % 2
    if b"data" not in seen:
        return None
    head, data = seen[b"fmt "], seen[b"data"]
    if len(head) not in (16, 18, 40):
        return None
    tag, channels, rate, _, block, bits = struct.unpack("<HHIIHH", head[:16])
    if len(head) == 18 and head[16:] != b"\0\0":
        return None
    if len(head) == 40:
        extra, valid, _, sub = struct.unpack("<HHIH", head[16:26])
        if tag != 0xFFFE or extra != 22 or valid > bits or head[26:] != TAIL:
            return None
        tag = sub
    if (tag, bits) not in KINDS or channels == 0 or block != channels * bits // 8 or 4 * channels > 65535:
        return None
    if len(data) % block:
        return None
    step = bits // 8
    return rate, channels, [value(tag, bits, data[i : i + step]) for i in range(0, len(data), step)]


def written(rate, channels, words):
    samples = len(words) // channels
    body = struct.pack("<%dI" % len(words), *words)
    return riff(
        chunk(b"fmt ", struct.pack("<HHIIHHH", 3, channels, rate, 4 * channels * rate % 2**32, 4 * channels, 32, 0))
        + chunk(b"fact", struct.pack("<I", samples))
        + chunk(b"data", body)
    )


def expected(f, room):
    got = read(f)
    if got is None:
        return 17, 0, b"\7" * room
    out = written(*got)
    if room < len(out):
        return 8, len(out), b"\7" * room
    return 0, len(out), out + b"\7" * (room - len(out))


# ---- files

def numbers(rng, tag, bits, count):
    out = b""
    for _ in range(count):
        pick = rng.randrange(4)
        if tag == 3 and bits == 64 and pick < 3:
            # near what a float of 32 bits holds: an edge of its exponents, a tie, or one off it
            field = rng.choice([0, 1, rng.randrange(2048), rng.randrange(870, 900), rng.randrange(1148, 1155), 1023, 2046, 2047])
            digits = rng.choice([0, 1, 2**52 - 1, rng.getrandbits(52), rng.getrandbits(23) << 29, (rng.getrandbits(24) << 28)])
            out += struct.pack("<Q", rng.getrandbits(1) << 63 | field << 52 | (digits + rng.choice([0, 0, 1, -1])) % 2**52)
        elif pick == 0:
            half = 2 ** (bits - 1)
            n = rng.choice([0, 1, 2, -1, -2, half - 1, half - 2, -half, -half + 1, half // 2, 2**24 + 1 if bits > 24 else 3])
            out += (n % 2**bits).to_bytes(bits // 8, "little")
        else:
            out += rng.getrandbits(bits).to_bytes(bits // 8, "little")
    return out


def made(rng):
    tag, bits = rng.choice(KINDS)
    shape = rng.choice([16, 18, 40])
    channels = rng.choice([1, 1, 2, 2, 3, 5, 8])
    samples = rng.choice([0, 1, 2, rng.randrange(40)])
    rate = rng.choice([44100, 48000, 0, 2**32 - 1])
    block = channels * bits // 8
    valid = rng.choice([bits, bits, bits - 4, 0])
    if rng.randrange(20) == 0:
        channels, samples = rng.choice([8192, 16383, 16384]), 0
        block = channels * bits // 8 % 65536
    wrong = rng.randrange(12)
    if wrong == 0:
        bits = rng.choice([8, 12, 20, 32, 64, bits + 1])
    if wrong == 1:
        tag = rng.choice([0, 1, 2, 3, 6, 7, 0xFFFE])
    if wrong == 2:
        block += rng.choice([1, -1, block])
    if wrong == 3:
        valid = bits + 1
    head = bytearray(fmt(shape, tag, channels, rate, block % 65536, bits, valid, rng.getrandbits(32)))
    if wrong == 9:
        head[-1 - rng.randrange(18 if shape == 40 else 2)] ^= 1 << rng.randrange(8)
    body = numbers(rng, tag, bits, channels * samples) if (tag, bits) in KINDS else bytes(block * samples)
    if wrong == 10:
        body += bytes(rng.randrange(1, max(block, 2)))
    data = chunk(b"data", body)
    parts = [bytes(head), data]
    if rng.randrange(3) == 0:
        parts.insert(rng.randrange(3), chunk(b"fact", rng.choice([struct.pack("<I", samples), struct.pack("<I", channels * samples), b""])))
    if rng.randrange(3) == 0:
        parts.insert(rng.randrange(len(parts) + 1), chunk(b"LIST", bytes(rng.randrange(5)), b"\xff"))
    if wrong == 4:
        rng.shuffle(parts)
    if wrong == 5:
        parts.append(rng.choice(parts))
    f = bytearray(riff(b"".join(parts)))
    if wrong == 6:
        at = rng.randrange(min(len(f), 60))
        f[at] ^= 1 << rng.randrange(8)
    if wrong == 7:
        f = f[: rng.randrange(len(f))]
    if wrong == 8:
        f += b"\0"
    return bytes(f)


def by_wave(rng):
    """python's own writer"""
    bytes_each = rng.choice([2, 3, 4])
    channels = rng.choice([1, 2, 6])
    to = io.BytesIO()
    with wave.open(to, "wb") as w:
        w.setnchannels(channels)
        w.setsampwidth(bytes_each)
        w.setframerate(rng.choice([8000, 44100, 192000]))
        w.writeframes(numbers(rng, 1, 8 * bytes_each, channels * rng.randrange(20)))
    return to.getvalue()


def ask(port, questions):
    sent = b"".join(struct.pack("<II", len(f), room) + f for f, room in questions)
    got = subprocess.run(port, input=sent, stdout=subprocess.PIPE, check=True).stdout
    at, answers = 0, []
    for f, room in questions:
        number, length = struct.unpack("<II", got[at : at + 8])
        answers.append((number, length, got[at + 8 : at + 8 + room]))
        at += 8 + room
    assert at == len(got)
    return answers


def compare(port, questions):
    tally = {}
    for (f, room), got in zip(questions, ask(port, questions)):
        want = expected(f, room)
        if got != want:
            open("target/oracle/forms-input", "wb").write(f)
            sys.exit(f"forms: room {room}: answered {got[:2]} and should {want[:2]}, or another output; the file is target/oracle/forms-input")
        tally[got[0]] = tally.get(got[0], 0) + 1
    return tally


def edges():
    """-32768, 32767, -1, 0 ..; floats of 64 bits at each edge, ties and what stands beside them"""
    words = lambda tag, bits, ns: riff(fmt(16, tag, 1, 44100, bits // 8, bits, bits) + chunk(b"data", b"".join((n % 2**bits).to_bytes(bits // 8, "little") for n in ns)))
    for bits in (16, 24, 32):
        half = 2 ** (bits - 1)
        yield words(1, bits, [0, 1, -1, half - 1, -half, 1 - half] + [s * (2**k + d) for k in range(bits - 1) for d in (-1, 0, 1) for s in (1, -1)])
    near = []
    for field in list(range(0, 4)) + list(range(868, 902)) + list(range(1020, 1028)) + list(range(1148, 1154)) + [2045, 2046, 2047]:
        for digits in (0, 1, 2**28, 2**28 - 1, 2**28 + 1, 3 * 2**28, 3 * 2**28 - 1, 3 * 2**28 + 1, 2**51, 2**51 + 1, 2**52 - 1, 2**52 - 2**28, 2**52 - 2**28 - 1, 2**52 - 2**29):
            near += [field << 52 | digits, 1 << 63 | field << 52 | digits]
    yield words(3, 64, near)
    yield words(3, 64, [struct.unpack("<Q", struct.pack("<d", x))[0] for x in (1.0, 0.1, -0.0, 1e-40, 1 + 2**-24, 1 + 3 * 2**-24, 1e300, math.nan, -math.inf, 2**-149, 2**-150, 2**-150 * 1.5)])


def decoded(path):
    """The words that ffmpeg makes of a file."""
    words = ["ffmpeg", "-v", "error", "-i", path, "-f", "f32le", "-c:a", "pcm_f32le", "-"]
    return subprocess.run(words, stdout=subprocess.PIPE, check=True).stdout


def tools(port):
    rng = random.Random(1)
    here = tempfile.mkdtemp()
    plain = os.path.join(here, "in.wav")
    with wave.open(plain, "wb") as w:
        w.setnchannels(2), w.setsampwidth(4), w.setframerate(44100)
        w.writeframes(numbers(rng, 1, 32, 2 * 500))
    commands = []
    for bits, kind in ((16, "signed-integer"), (24, "signed-integer"), (32, "signed-integer"), (32, "floating-point"), (64, "floating-point")):
        commands.append(["sox", "-D", plain, "-b", str(bits), "-e", kind])
        if kind == "signed-integer":
            commands.append(["sox", "-D", plain, "-t", "wavpcm", "-b", str(bits), "-e", kind])
    for codec in ("pcm_s16le", "pcm_s24le", "pcm_s32le", "pcm_f32le", "pcm_f64le"):
        commands.append(["ffmpeg", "-v", "error", "-y", "-i", plain, "-c:a", codec])
    for name in ("pcm16", "pcm24", "pcm32", "float32"):
        commands.append(["sndfile-convert", "-" + name, plain])
    done, left = 0, set()
    for i, words in enumerate(commands):
        if not shutil.which(words[0]):
            left.add(words[0])
            continue
        to = os.path.join(here, f"{i}.wav")
        subprocess.run(words + [to], stdout=subprocess.DEVNULL, stderr=subprocess.DEVNULL, check=True)
        f = open(to, "rb").read()
        compare(port, [(f, 65536)])
        number, length, out = ask(port, [(f, 65536)])[0]
        if number != 0:
            sys.exit(f"forms: {' '.join(words)}: answered {number}")
        if shutil.which("ffmpeg") and out[58:length] != decoded(to):
            sys.exit(f"forms: {' '.join(words)}: ffmpeg reads other words")
        done += 1
    shutil.rmtree(here)
    print(f"forms: {done} files of tools turned" + (f"; not installed: {', '.join(sorted(left))}" if left else ""))


def main():
    port = sys.argv[1:3]
    if sys.argv[3:] == ["tools"]:
        return tools(port)
    rng = random.Random(int(sys.argv[3]) if sys.argv[3:] else 1)
    count = int(sys.argv[4]) if sys.argv[4:] else 1500
    questions = [(f, 65536) for f in edges()]
    for i in range(count):
        f = by_wave(rng) if i % 5 == 0 else made(rng)
        got = read(f)
        need = 0 if got is None else len(written(*got))
        questions.append((f, max(0, need + rng.choice([0, 0, 0, -1, 1, 5, -need]))))
    tally = compare(port, questions)
    print("forms:", len(questions), "files;", ", ".join(f"{tally[n]} answered {n}" for n in sorted(tally)))


main()
