#!/usr/bin/env python3
"""Runs the built program on random maps and texts, damaged ones included, and compares what it prints with a simple model.

Use: tools/compare.py [COUNT] [FIRST]     COUNT cases (default 2000), numbered from FIRST (default 0)

The model is written from docs/, by other means than the program: files are read by slices, chains by sorting, answers by relaxing
all streets until nothing changes, trees by scanning every street at each step. The first difference is reported with its map and
text, kept in crates/detours/out/compare/.
"""
import os
import random
import subprocess
import sys
import tempfile

TOP = 2**64 - 1
PROGRAM = os.path.join(os.path.dirname(os.path.abspath(__file__)), "..", "crates", "detours", "out", "detours")
KEPT = os.path.join(os.path.dirname(os.path.abspath(__file__)), "..", "crates", "detours", "out", "compare")


# ---- the kinds of length
class Paces:
    zero = 0

    @staticmethod
    def join(a, b):
        return min(a + b, TOP)

    @staticmethod
    def no_worse(a, b):
        return a <= b


class Gates:
    zero = TOP

    @staticmethod
    def join(a, b):
        return min(a, b)

    @staticmethod
    def no_worse(a, b):
        return a >= b


# ---- map files: a map is (n, {slot: (tail, head, length)})
def word(data, at):
    return data[at] | data[at + 1] << 8


def chains(streets, end):
    """For each junction the slots with that end, rising."""
    result = {}
    for slot in sorted(streets):
        result.setdefault(streets[slot][end], []).append(slot)
    return result


def open_sheet(data):
    if len(data) < 4:
        return 1
    if data[0] != 0x53:
        return 2
    n, m = data[1], word(data, 2)
    if n == 0 or n > 128 or m > 512:
        return 3
    if len(data) != 4 + 4 * n + 10 * m:
        return 4
    records = [data[4 + 4 * n + 10 * e:4 + 4 * n + 10 * e + 10] for e in range(m)]
    streets = {}
    for e, record in enumerate(records, 1):
        if record[0] == 0:
            if any(record):
                return 5
        elif record[0] > n or not 1 <= record[1] <= n:
            return 6
        else:
            streets[e] = (record[0], record[1], int.from_bytes(record[2:6], "little"))
    for end in (0, 1):
        chain = chains(streets, end)
        for v in range(1, n + 1):
            if word(data, 4 + 4 * (v - 1) + 2 * end) != (chain.get(v) or [0])[0]:
                return 7
        for e, record in enumerate(records, 1):
            after = 0
            if e in streets:
                row = chain[streets[e][end]]
                after = (row[row.index(e) + 1:] or [0])[0]
            if word(record, 6 + 2 * end) != after:
                return 7
    return n, streets


def open_block(data):
    if len(data) < 3:
        return 1
    width, height = data[1], data[2]
    if width == 0 or height == 0 or width * height > 128:
        return 3
    if len(data) != 3 + width * height:
        return 4
    streets = {}
    for row in range(height):
        for column in range(width):
            j = row * width + column
            for d, (down, right) in enumerate(((-1, 0), (0, 1), (1, 0), (0, -1))):
                if data[3 + j] >> d & 1:
                    r, c = row + down, column + right
                    if not (0 <= r < height and 0 <= c < width):
                        return 8
                    to = r * width + c
                    streets[4 * j + d + 1] = (j + 1, to + 1, 1 + data[3 + to] // 16)
    return width * height, streets


def open_map(data):
    return open_block(data) if data[:1] == b"\x47" else open_sheet(data)


# ---- the oracle
def reached(kind, streets, closed, s):
    """The best open length to each junction, by relaxing all streets until nothing changes."""
    best = {s: kind.zero}
    changed = True
    while changed:
        changed = False
        for e, (tail, head, length) in streets.items():
            if e in closed or tail not in best:
                continue
            offer = kind.join(best[tail], length)
            if head not in best or not kind.no_worse(best[head], offer):
                best[head] = offer
                changed = True
    return best


def tree_slots(kind, streets, transit, root):
    """The slots that the tree of a transit node holds."""
    length, slots = {root: kind.zero}, set()
    while True:
        choice = None
        for e in sorted(streets):
            tail, head, own = streets[e]
            if tail in length and head not in length and (tail == root or tail not in transit):
                offer = kind.join(length[tail], own)
                if choice is None or not kind.no_worse(choice[0], offer):
                    choice = (offer, e, head)
        if choice is None:
            return slots
        length[choice[2]] = choice[0]
        slots.add(choice[1])


class Oracle:
    def __init__(self, kind, n, streets):
        self.kind, self.n, self.streets = kind, n, streets
        self.built, self.transit, self.closed, self.tally, self.trees = False, [], set(), 0, []

    def on(self, v):
        return 1 <= v <= self.n

    def call(self, letter, numbers):
        if (letter in "TB") == self.built:
            return 53
        return getattr(self, "call_" + letter)(*numbers)

    def call_T(self, v):
        if not self.on(v):
            return 11
        if v in self.transit:
            return 12
        if len(self.transit) == 16:
            return 13
        self.transit.append(v)
        return "ok"

    def call_B(self):
        self.built = True
        self.trees = [tree_slots(self.kind, self.streets, self.transit, v) for v in self.transit]
        return "ok"

    def call_C(self, e):
        if e not in self.streets:
            return 21
        if e in self.closed:
            return 22
        self.closed.add(e)
        return "ok"

    def call_R(self, e):
        if e not in self.streets:
            return 21
        if e not in self.closed:
            return 23
        self.closed.remove(e)
        return "ok"

    def call_Q(self, s, t):
        if not (self.on(s) and self.on(t)):
            return 24
        self.tally = min(self.tally + 1, 65535)
        best = reached(self.kind, self.streets, self.closed, s)
        redone = sum(1 for v, tree in zip(self.transit, self.trees) if v in best and tree & self.closed)
        return f"length {best[t]} redone {redone}" if t in best else f"no way redone {redone}"

    def call_N(self):
        return f"tally {self.tally}"

    def call_P(self):
        self.built, self.transit = False, []
        return "ok"


COUNTS = {"T": 1, "B": 0, "C": 1, "R": 1, "Q": 2, "N": 0, "P": 0}


def read_line(line):
    """A command as (letter, numbers), or the number of its refusal with the digits."""
    parts = line.split(b" ")
    letter = parts[0].decode("latin-1")
    if letter not in COUNTS or len(parts) != 1 + COUNTS[letter]:
        return 51, None
    if any(not p or any(c not in b"0123456789" for c in p) for p in parts[1:]):
        return 51, None
    for p in parts[1:]:
        if int(p) > 65535:
            return 52, p
    return letter, [int(p) for p in parts[1:]]


def model(data, text):
    data = data[:5637]
    opened = open_map(data)
    if isinstance(opened, int):
        return f"refused 0 {opened}\n".encode()
    if len(text) > 4096:
        return b"refused 1 55\n"
    lines = text.split(b"\n")
    if lines[-1] == b"":
        lines.pop()
    kinds = {b"paces": Paces, b"gates": Gates}
    if not lines or lines[0] not in kinds:
        return b"refused 1 54\n"
    oracle = Oracle(kinds[lines[0]], *opened)
    out = []
    for number, line in enumerate(lines[1:], 2):
        head, rest = read_line(line)
        if head == 51:
            out.append(f"refused {number} 51".encode())
        elif head == 52:
            out.append(f"refused {number} 52 ".encode() + rest)
        else:
            answer = oracle.call(head, rest)
            out.append((f"refused {number} {answer}" if isinstance(answer, int) else answer).encode())
    return b"".join(line + b"\n" for line in out)


# ---- random cases
def write_sheet(n, m, streets):
    data = bytearray([0x53, n, m & 255, m >> 8])
    both = chains(streets, 0), chains(streets, 1)
    for v in range(1, n + 1):
        for chain in both:
            data += (chain.get(v) or [0])[0].to_bytes(2, "little")
    for e in range(1, m + 1):
        if e not in streets:
            data += bytes(10)
            continue
        tail, head, length = streets[e]
        data += bytes([tail, head]) + length.to_bytes(4, "little")
        for end, chain in enumerate(both):
            row = chain[streets[e][end]]
            data += (row[row.index(e) + 1:] or [0])[0].to_bytes(2, "little")
    return bytes(data)


def random_sheet(rng):
    n = rng.choice((1, 2, 3, 4, 6, 10, 24, 128))
    m = rng.randrange(0, min(512, 5 * n) + 1)
    lengths = rng.choice(((0,), (1,), (1, 2, 3), range(100), (2**32 - 1, 2**32 - 2, 0)))
    streets = {}
    for e in range(1, m + 1):
        if rng.random() < 0.85:
            streets[e] = (rng.randint(1, n), rng.randint(1, n), rng.choice(lengths))
    return write_sheet(n, m, streets)


def random_block(rng):
    width = rng.choice((1, 2, 3, 4, 8, 128))
    height = rng.randint(1, max(1, min(16, 128 // width)))
    cells = bytearray()
    for row in range(height):
        for column in range(width):
            cell = rng.randrange(256) | (15 if rng.random() < 0.3 else 0)
            open_sides = (row > 0) | (column + 1 < width) << 1 | (row + 1 < height) << 2 | (column > 0) << 3
            cells.append(cell & (0xF0 | open_sides))
    return bytes([0x47, width, height]) + bytes(cells)


def random_map(rng):
    data = random_block(rng) if rng.random() < 0.4 else random_sheet(rng)
    if rng.random() < 0.15:
        data = bytearray(data)
        for _ in range(rng.randint(1, 3)):
            change = rng.randrange(4)
            at = rng.randrange(len(data)) if data else 0
            if change == 0 and data:
                data[at] = rng.randrange(256)
            elif change == 1 and data:
                del data[at:]
            elif change == 2:
                data += bytes(rng.choice((1, 10, 6000)))
            elif data:
                data[at] ^= 1 << rng.randrange(8)
        data = bytes(data)
    return data


def random_line(rng, n, m, built):
    letters = ("CRQNPTB", (5, 4, 10, 2, 1, 0.3, 0.3)) if built else ("TBCRQNP", (3, 3, 0.3, 0.3, 0.3, 0.2, 0.2))
    letter = rng.choices(*letters)[0]
    top = m if letter in "CR" else n
    numbers = []
    for _ in range(COUNTS[letter]):
        value = str(rng.randint(1, max(1, top)) if rng.random() < 0.95 else rng.choice((0, top + 1, 65535, 65536, 99999, 10**30)))
        numbers.append(value.zfill(rng.choice((1, 1, 1, 1, 3, 40))))
    line = " ".join([letter] + numbers).encode()
    if rng.random() < 0.04:
        at = rng.randrange(len(line) + 1)
        line = line[:at] + rng.choice((b" ", b"\r", b"x", b"0", b"", b"\xff")) + line[at + rng.randrange(2):]
    return line


def random_lines(rng, n, m, count):
    built, lines = True, []
    for _ in range(count):
        lines.append(random_line(rng, n, m, built))
        built = {b"B": True, b"P": False}.get(lines[-1], built)
    return lines


def random_text(rng, data):
    n, m = (data[1:2] or b"\x01")[0], 20
    if data[:1] == b"\x47" and len(data) > 2:
        n, m = data[1] * data[2], 4 * data[1] * data[2]
    elif len(data) >= 4:
        m = word(data, 2)
    lines = [rng.choice((b"paces", b"gates"))] if rng.random() < 0.97 else [rng.choice((b"", b"pace", b"Gates", b"gates\r"))]
    few = rng.sample(range(1, max(2, n + 1)), min(max(1, n), rng.choice((0, 1, 2, 4, 8, 16, 17, 20))))
    lines += [b"T %d" % v for v in few] + [b"B"]
    lines += random_lines(rng, n, min(m, 600), rng.choice((0, 5, 40, 200)))
    text = b"\n".join(lines) + (b"\n" if rng.random() < 0.8 else b"")
    if rng.random() < 0.05:
        text = (text * 200)[:rng.choice((0, 4095, 4096, 4097, 5000))]
    return text


def main():
    count = int(sys.argv[1]) if len(sys.argv) > 1 else 2000
    first = int(sys.argv[2]) if len(sys.argv) > 2 else 0
    if not os.path.exists(PROGRAM):
        sys.exit("crates/detours/out/detours is not built: run rt run in crates/detours first")
    with tempfile.TemporaryDirectory() as folder:
        for case in range(first, first + count):
            rng = random.Random(case)
            data = random_map(rng)
            text = random_text(rng, data)
            path = os.path.join(folder, "map.bin")
            if rng.random() < 0.02:
                data = b""
                if os.path.exists(path):
                    os.remove(path)
            else:
                with open(path, "wb") as file:
                    file.write(data)
            run = subprocess.run([os.path.abspath(PROGRAM)], cwd=folder, input=text, stdout=subprocess.PIPE, check=False)
            wanted = model(data, text)
            if run.returncode != 0 or run.stdout != wanted:
                os.makedirs(KEPT, exist_ok=True)
                for name, content in (("map.bin", data), ("text", text), ("printed", run.stdout), ("wanted", wanted)):
                    with open(os.path.join(KEPT, name), "wb") as file:
                        file.write(content)
                sys.exit(f"case {case} differs (status {run.returncode}): see crates/detours/out/compare/")
    print(f"{count} cases agree")


if __name__ == "__main__":
    main()
