#!/usr/bin/env python3
"""Writes the map file of a drawing: tools/draw.py DRAWING MAP

A street plan has the line `junctions N`, then a line for each street, in the order of the slots: `1 -> 2 60` for a one-way street from 1
to 2 of length 60, `1 - 2 60` for two streets, one each way, `empty` for an empty slot. Text after # is a remark.

A maze is drawn with `+`, `--` and `|` for walls, each cell two places wide; a hex digit in a cell makes each street into it that much
longer. Streets lead both ways through every opening between two cells.
"""
import sys


def sheet(lines):
    count, streets = 0, []
    for line in lines:
        words = line.split("#")[0].split()
        if not words:
            continue
        if words[0] == "junctions":
            count = int(words[1])
        elif words[0] == "empty":
            streets.append(None)
        else:
            tail, way, head, length = int(words[0]), words[1], int(words[2]), int(words[3])
            streets.append((tail, head, length))
            if way == "-":
                streets.append((head, tail, length))

    def lowest(end, junction, above):
        for slot in range(above + 1, len(streets) + 1):
            street = streets[slot - 1]
            if street and street[end] == junction:
                return slot
        return 0

    def two(number):
        return number.to_bytes(2, "little")

    data = bytes([0x53, count]) + two(len(streets))
    for junction in range(1, count + 1):
        data += two(lowest(0, junction, 0)) + two(lowest(1, junction, 0))
    for slot, street in enumerate(streets, 1):
        if street is None:
            data += bytes(10)
        else:
            tail, head, length = street
            data += bytes([tail, head]) + length.to_bytes(4, "little") + two(lowest(0, tail, slot)) + two(lowest(1, head, slot))
    return data


def block(lines):
    rows = [line.rstrip("\n").split("#")[0].rstrip() for line in lines]
    rows = [line for line in rows if line]
    width, height = len(rows[0]) // 3, len(rows) // 2
    rows = [line.ljust(3 * width + 1) for line in rows]
    cells = []
    for r in range(height):
        for c in range(width):
            place = 3 * c + 1
            inside = rows[2 * r + 1][place : place + 2].strip()
            cell = 16 * int(inside, 16) if inside else 0
            for bit, wall in (
                (1, rows[2 * r][place]),
                (2, rows[2 * r + 1][place + 2]),
                (4, rows[2 * r + 2][place]),
                (8, rows[2 * r + 1][place - 1]),
            ):
                if wall == " ":
                    cell |= bit
            cells.append(cell)
    return bytes([0x47, width, height]) + bytes(cells)


def main():
    with open(sys.argv[1]) as drawing:
        lines = drawing.readlines()
    first = next(line for line in lines if line.split("#")[0].strip())
    data = block(lines) if first.lstrip().startswith("+") else sheet(lines)
    with open(sys.argv[2], "wb") as out:
        out.write(data)


main()
