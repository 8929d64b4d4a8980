#!/usr/bin/env python3
"""The program's task once more, sector by sector and with no extents: what crates/volume_compiler/stdout should hold.

It keeps a Python list with one target for each sector, so it shares no algorithm with the proved code.
Run: python3 tools/second_program.py | diff - crates/volume_compiler/stdout
"""

DEVICES = [(8, 0, 4096), (8, 16, 4096)]
CHUNK, ROWS, COLUMNS = 8, 4, [(0, 1024), (1, 2048)]
WIDTH = len(COLUMNS)


def shift(target, k):
    return target if target[0] in ("zero", "error") else (target[0], target[1], target[2] + k)


def place(target):
    if target[0] == "striped":
        q, rest = divmod(target[2], CHUNK)
        device, base = COLUMNS[q % WIDTH]
        return ("at", device, base + q // WIDTH * CHUNK + rest)
    return ("at", target[1], target[2]) if target[0] == "linear" else (target[0],)


def in_area(device, sector):
    return any(device == d and base <= sector < base + ROWS * CHUNK for d, base in COLUMNS)


def lawful(target):
    if target[0] == "linear":
        if target[2] >= DEVICES[target[1]][2]:
            return 7
        return 8 if in_area(target[1], target[2]) else 0
    return 7 if target[0] == "striped" and target[2] >= WIDTH * CHUNK * ROWS else 0


def judge(target, length):
    numbers = [lawful(shift(target, k)) for k in range(length)]
    return 7 if 7 in numbers else 8 if 8 in numbers else 0


def extents(row):
    starts = [i for i in range(len(row)) if i == 0 or row[i] != shift(row[i - 1], 1)]
    return list(zip(starts, starts[1:] + [len(row)]))


def dev(number):
    return "%d:%d" % DEVICES[number][:2]


def lines(row):
    for start, end in extents(row):
        target = row[start]
        if target[0] in ("zero", "error"):
            yield "%d %d %s" % (start, end - start, target[0])
        elif target[0] == "linear":
            yield "%d %d linear %s %d" % (start, end - start, dev(target[1]), target[2])
        else:
            at = start
            while at < end:
                offset, left = row[at][2], end - at
                if offset % (WIDTH * CHUNK) == 0 and left >= WIDTH * CHUNK:
                    taken = left // (WIDTH * CHUNK) * (WIDTH * CHUNK)
                    row_number = offset // (WIDTH * CHUNK)
                    columns = " ".join("%s %d" % (dev(d), base + row_number * CHUNK) for d, base in COLUMNS)
                    yield "%d %d striped %d %d %s" % (at, taken, WIDTH, CHUNK, columns)
                else:
                    taken = min(left, CHUNK - offset % CHUNK)
                    _, device, sector = place(row[at])
                    yield "%d %d linear %s %d" % (at, taken, dev(device), sector)
                at += taken


LAYERS = {1: "table", 2: "table", 3: "table", 4: "table", 9: "table", 11: "table"}


def say(what, number):
    print("%s: accepted" % what if number == 0 else "%s: refused %d %s" % (what, number, LAYERS.get(number, "roster")))


def append(row, length, target):
    number = judge(target, length)
    if number == 0:
        row.extend(shift(target, k) for k in range(length))
    return number


def assign(row, start, length, target):
    if start + length > len(row):
        return 3
    number = judge(target, length)
    if number == 0:
        row[start:start + length] = [shift(target, k) for k in range(length)]
    return number


def show(name, row):
    text = "".join(line + "\n" for line in lines(row))
    print("%s prints %d bytes" % (name, len(text)))
    print(text, end="")


def main():
    for number, (major, minor, size) in enumerate(DEVICES):
        print("device %d:%d of %d sectors is number %d" % (major, minor, size, number))
    print("set of chunk 8 and 4 rows on 8:0 1024 and 8:16 2048 is number 0")
    print("the roster is closed")
    base = []
    say("base: append 100 linear 8:0 0", append(base, 100, ("linear", 0, 0)))
    say("base: append 64 of the set from its start", append(base, 64, ("striped", 0, 0)))
    say("base: assign 108 4 zero", assign(base, 108, 4, ("zero",)))
    say("base: assign 164 1 zero", assign(base, 164, 1, ("zero",)))
    show("base", base)
    del base[150:]
    say("base: cut 150", 0)
    show("base", base)
    top = []
    say("top: append 150 error", append(top, 150, ("error",)))
    say("top: assign 20 10 linear 8:16 0", assign(top, 20, 10, ("linear", 1, 0)))
    say("top: assign 104 4 zero", assign(top, 104, 4, ("zero",)))
    say("top: assign 25 5 linear 8:16 4095", assign(top, 25, 5, ("linear", 1, 4095)))
    show("top", top)
    laid = [b if t[0] == "error" else t for t, b in zip(top, base)]
    say("overlay: top on base", 0)
    show("overlay", laid)
    for sector in (0, 24, 30, 104, 108, 112, 149):
        where = place(laid[sector])
        words = "%s %d" % (dev(where[1]), where[2]) if where[0] == "at" else where[0]
        print("overlay sector %d: %s" % (sector, words))
    for number in (0, 0, 0, 3, 0, 0):
        say("replay", number)
    show("replay", laid)


main()
