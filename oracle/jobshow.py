#!/usr/bin/env python3
"""Holds jobshow against a reader of its own, written from docs/JOB-FILE.md and docs/REFUSALS.md alone.

    python3 oracle/jobshow.py [COUNT [SEED]]      from the repository's root, after `rt run` in crates/jobshow

Makes COUNT files (3,000 if not said): jobs, jobs cut short, with bytes changed, put in or left over, and noise;
then every front part of the files in examples/. Ends with status 1 at the first file that is answered otherwise.
"""
import pathlib
import random
import struct
import subprocess
import sys

PRIME, LIMITS = 65521, (256, 1024, 256)
FORMS = {1: ("scale-offset", 4), 2: ("flat", 6), 3: ("solid", 16)}


class Refused(Exception):
    pass


def residue(n, d):
    return n * pow(d, -1, PRIME) % PRIME


def pixel(n, d):
    return max(-2**31, min(2**31 - 1, 256 * n // d))


class Reader:
    def __init__(self, data):
        self.data, self.at = data, 0

    def refuse(self, number, place, layer="reader"):
        raise Refused(f"REFUSED {layer} {number} {place}")

    def count(self, limit):
        start = self.at
        if len(self.data) < start + 2:
            self.refuse(1, start)
        n = int.from_bytes(self.data[start:start + 2], "little")
        if n > limit:
            self.refuse(2, start)
        self.at += 2
        return n

    def numbers(self, n, item):
        if len(self.data) < self.at + 6 * n:
            self.refuse(1, item)
        pairs = [struct.unpack_from("<iH", self.data, self.at + 6 * k) for k in range(n)]
        if any(not 1 <= d <= 65520 for _, d in pairs):
            self.refuse(4, item)
        self.at += 6 * n
        return pairs

    def step(self):
        item = self.at
        if item == len(self.data):
            self.refuse(1, item)
        code = self.data[item]
        if code != 32 and code % 16 not in FORMS or code > 32 or (code > 19 and code != 32):
            self.refuse(3, item)
        self.at += 1
        if code == 32:
            return "undo"
        name, n = FORMS[code % 16]
        side = "then" if code < 16 else "before"
        return " ".join([side, name, *(str(residue(*f)) for f in self.numbers(n, item))])

    def point(self):
        return " ".join(str(residue(*f)) for f in self.numbers(3, self.at))

    def frame(self, index):
        min_x, min_y, max_x, max_y = (pixel(*f) for f in self.numbers(4, self.at))
        if min_x > max_x or min_y > max_y:
            self.refuse(6, index, "frame")
        return f"{min_x} {min_y} {max_x} {max_y}"


def answer(data):
    r = Reader(data)
    try:
        out = [f"step {i} {r.step()}" for i in range(r.count(LIMITS[0]))]
        out += [f"point {i} {r.point()}" for i in range(r.count(LIMITS[1]))]
        out += [f"frame {i} {r.frame(i)}" for i in range(r.count(LIMITS[2]))]
        if r.at < len(data):
            r.refuse(5, r.at)
    except Refused as e:
        return str(e) + "\n", 1
    return "".join(line + "\n" for line in out), 0


EDGES = (0, 1, -1, 2, 256, -256, 65520, 65521, 65522, -65521, 2**31 - 1, -2**31, 2**23, -2**23)


def number(rng, good):
    n = rng.choice(EDGES) if rng.random() < 0.4 else rng.randint(-2**31, 2**31 - 1) if rng.random() < 0.5 else rng.randint(-999, 999)
    d = rng.choice((1, 1, 1, 2, 3, 255, 256, 65519, 65520)) if rng.random() < 0.8 else rng.randint(1, 65520)
    if not good and rng.random() < 0.02:
        d = rng.choice((0, 65521, 65535))
    return struct.pack("<iH", n, d)


def frame(rng, good):
    if not good and rng.random() < 0.1:
        return b"".join(number(rng, good) for _ in range(4))
    low = [rng.randint(-2**31, 2**31 - 2) if rng.random() < 0.5 else rng.randint(-9, 9) for _ in range(2)]
    high = [rng.randint(v, 2**31 - 1) if rng.random() < 0.5 else v + rng.randint(0, 1) for v in low]
    d = [rng.randint(1, 65520) for _ in range(2)]
    return b"".join(struct.pack("<iH", v, d[k % 2]) for k, v in enumerate(low + high))


def job(rng, good=True):
    most = rng.choice((1, 3, 20)) if rng.random() < 0.95 else 256
    steps, points, frames = (rng.randint(0, min(most * k, l)) for k, l in zip((1, 4, 1), LIMITS))
    out = struct.pack("<H", steps)
    for _ in range(steps):
        code = rng.choice((1, 2, 3, 17, 18, 19, 32))
        if not good and rng.random() < 0.02:
            code = rng.randint(0, 255)
        out += bytes([code]) + b"".join(number(rng, good) for _ in range(FORMS.get(code % 16, ("", 0))[1] if code != 32 else 0))
    out += struct.pack("<H", points) + b"".join(number(rng, good) for _ in range(3 * points))
    return out + struct.pack("<H", frames) + b"".join(frame(rng, good) for _ in range(frames))


def damaged(rng):
    data = bytearray(job(rng, rng.random() < 0.5))
    kind = rng.randint(0, 5)
    if kind == 0:
        return bytes(data[:rng.randint(0, len(data))])
    if kind == 1:
        for _ in range(rng.randint(1, 4)):
            data[rng.randrange(len(data))] = rng.choice((0, 1, 16, 20, 32, 33, 255, rng.randint(0, 255)))
    elif kind == 2:
        data += bytes(rng.randint(0, 255) for _ in range(rng.randint(1, 9)))
    elif kind == 3:
        at = rng.randint(0, len(data))
        data[at:at] = bytes(rng.randint(0, 255) for _ in range(rng.randint(1, 9)))
    elif kind == 4:
        return bytes(rng.randint(0, 255) for _ in range(rng.randint(0, 60)))
    return bytes(data)


def main():
    count = int(sys.argv[1]) if len(sys.argv) > 1 else 3000
    rng = random.Random(int(sys.argv[2]) if len(sys.argv) > 2 else 1)
    files = (damaged(rng) if rng.random() < 0.7 else job(rng) for _ in range(count))
    samples = [p.read_bytes() for p in sorted(pathlib.Path("examples").glob("*.job"))]
    fronts = (s[:n] for s in samples for n in range(len(s) + 1))
    seen, told = 0, {}
    for group in (files, fronts):
        for data in group:
            run = subprocess.run(["crates/jobshow/out/jobshow"], input=data, capture_output=True)
            want, status = answer(data)
            if (run.stdout.decode(), run.returncode, run.stderr) != (want, status, b""):
                print("differs:", data.hex(), "\nwanted:", want, status, "\ngot:", run)
                sys.exit(1)
            seen += 1
            head = " ".join(want.split()[:3]) if status else "shown"
            told[head] = told.get(head, 0) + 1
    print(f"{seen} files, no difference;", ", ".join(f"{v} {k}" for k, v in sorted(told.items())))


main()
