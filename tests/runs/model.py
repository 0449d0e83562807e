#!/usr/bin/env python3
"""A model of cartridges and runs, written straight from the rules and apart from the proved code.

It says what the programs runs_check and mode_vectors must print:
    model.py write    writes their files 'stdout'
    model.py check    compares them, and says whether they are the same
Units enter by the rule, cycle by cycle; results come from the equations of the modes, numbered from 1.
"""
import pathlib
import re
import sys

TOP = pathlib.Path(__file__).resolve().parents[2]
LIMIT = 1_048_576
MASK = (1 << 64) - 1


# ---- the DEA, bit by bit, with the published tables

def tables():
    text = (TOP / "crates/cipher/specs/Tables.antt").read_text()
    found = re.finditer(r"abbrev pub (\S+) : List ℕ\n\1 =\n(.*?)\[\]\n", text, re.S)
    return {m.group(1): [int(x) for x in re.findall(r"\d+", m.group(2))] for m in found}


T = tables()


def select(width, table, word):
    bits = 0
    for place in table:
        bits = bits << 1 | (word >> (width - place) & 1)
    return bits


def round_keys(key):
    both = select(64, T["pc1_table"], key)
    c, d = both >> 28, both & 0xFFFFFFF
    keys = []
    for s in T["rotation_table"]:
        c = (c << s | c >> (28 - s)) & 0xFFFFFFF
        d = (d << s | d >> (28 - s)) & 0xFFFFFFF
        keys.append(select(56, T["pc2_table"], c << 28 | d))
    return keys


# what each box makes of six bits, permuted: only to be quicker
SP = [[select(32, T["p_table"],
              T["s_table"][i * 64 + ((six >> 5) * 2 + (six & 1)) * 16 + (six >> 1 & 15)] << (28 - 4 * i))
       for six in range(64)] for i in range(8)]


def f(right, key):
    x = select(32, T["e_table"], right) ^ key
    out = 0
    for i in range(8):
        out ^= SP[i][x >> (42 - 6 * i) & 63]
    return out


def crypt(keys, block):
    x = select(64, T["ip_table"], block)
    left, right = x >> 32, x & 0xFFFFFFFF
    for key in keys:
        left, right = right, left ^ f(right, key)
    return select(64, T["ip_inverse_table"], right << 32 | left)


class Dea:
    def __init__(self, key):
        self.keys = round_keys(key)

    def forward(self, block):
        return crypt(self.keys, block)

    def inverse(self, block):
        return crypt(self.keys[::-1], block)


class Triple:
    def __init__(self, a, b, c):
        self.a, self.b, self.c = a, b, c

    def forward(self, block):
        return self.c.forward(self.b.inverse(self.a.forward(block)))

    def inverse(self, block):
        return self.a.inverse(self.b.forward(self.c.inverse(block)))


# ---- the modes: family, width, distance of the equations, distance enciphering, distance deciphering

MODES = {
    1: ("ecb", 64, 0, None, None), 2: ("cbc", 64, 1, 1, None), 3: ("cbc", 64, 3, 3, None),
    4: ("cfb", 64, 1, 1, None), 5: ("cfb", 8, 1, 1, None), 6: ("cfb", 1, 1, 1, None),
    7: ("cfb", 64, 3, 3, None), 8: ("cfb", 8, 3, 3, None), 9: ("cfb", 1, 3, 3, None),
    10: ("ofb", 64, 1, 1, 1), 11: ("ofb", 64, 3, 3, 3),
}


class Units:
    """All units of one run and their results, by the equations."""

    def __init__(self, cipher, code, enciphering, ivs):
        self.cipher, self.enciphering, self.ivs = cipher, enciphering, ivs
        self.family, self.width, self.delta = MODES[code][:3]
        self.results, self.ciphered, self.inputs, self.outputs = [], [], [], []

    def back(self, values, i):
        return self.ivs[i - 1] if i <= self.delta else values[i - self.delta - 1]

    def take(self, unit):
        i = len(self.results) + 1
        w = self.width
        if self.family == "ecb":
            result = self.cipher.forward(unit) if self.enciphering else self.cipher.inverse(unit)
        elif self.family == "cbc":
            before = self.back(self.ciphered, i)
            result = self.cipher.forward(unit ^ before) if self.enciphering else self.cipher.inverse(unit) ^ before
        elif self.family == "cfb":
            if i <= self.delta:
                block = self.ivs[i - 1]
            else:
                block = (self.inputs[-1] << w | self.ciphered[i - self.delta - 1]) & MASK
            self.inputs.append(block)
            result = unit ^ (self.cipher.forward(block) >> (64 - w))
        else:
            block = self.cipher.forward(self.back(self.outputs, i))
            self.outputs.append(block)
            result = unit ^ block
        self.ciphered.append(result if self.enciphering else unit)
        self.results.append(result)


class Refused(Exception):
    def __init__(self, number, detail):
        self.number, self.detail = number, detail


class Cartridge:
    def __init__(self, cipher, depth):
        self.cipher, self.depth, self.count = cipher, depth, 0


class Run:
    def __init__(self, cartridge, code, enciphering, ivs):
        self.cartridge, self.depth = cartridge, cartridge.depth
        self.units = Units(cartridge.cipher, code, enciphering, ivs)
        self.distance = MODES[code][3 if enciphering else 4]
        self.taken = self.handed_out = self.cycles = 0
        self.entries = []  # of the stretch: the cycle in which each unit entered, from 1

    def leaves(self, j):
        return self.entries[j] + self.depth - 1

    def inside(self):
        now = self.entries[-1] if self.entries else 0
        return sum(1 for j in range(len(self.entries)) if self.leaves(j) > now)

    def hand_out(self, upto):
        units = self.units.results[self.handed_out:upto]
        self.handed_out = upto
        return units

    def feed(self, units, room):
        inside = self.inside()
        if room < inside + len(units):
            raise Refused(6, inside + len(units))
        for index, unit in enumerate(units):
            if unit >> self.units.width:
                raise Refused(7, index)
        if self.cartridge.count + len(units) > LIMIT:
            raise Refused(8, LIMIT - self.cartridge.count)
        for unit in units:
            j = len(self.entries)
            earliest = self.entries[-1] + 1 if j else 1
            if self.distance and j >= self.distance:
                earliest = max(earliest, self.leaves(j - self.distance) + 1)
            self.cycles += earliest - (self.entries[-1] if j else 0)
            self.entries.append(earliest)
            self.units.take(unit)
            self.taken += 1
            self.cartridge.count += 1
        return self.hand_out(self.taken - self.inside())

    def drain(self, room):
        inside = self.inside()
        if room < inside:
            raise Refused(6, inside)
        if inside == 0:
            return []
        self.cycles += self.depth - 1
        self.entries = []
        return self.hand_out(self.taken)


# ---- runs_check

class Numbers:
    def __init__(self, seed):
        self.state = seed

    def draw(self):
        self.state = (self.state * 6364136223846793005 + 1442695040888963407) & MASK
        return self.state

    def pick(self, n):
        return (self.draw() >> 33) % n


class Digest:
    def __init__(self):
        self.value = 0xCBF29CE484222325

    def add(self, number):
        mixed = ((self.value ^ number) * 0x100000001B3) & MASK
        self.value = mixed ^ (mixed >> 29)


def draw_room(numbers, seldom):
    return numbers.pick(seldom) if numbers.pick(4) == 0 else 16


def one_call(run, numbers, digest):
    out = [0xA5A5A5A5A5A5A5A5 ^ i for i in range(16)]
    refused = 0
    try:
        if numbers.pick(4) == 3:
            given = run.drain(draw_room(numbers, 4))
        else:
            count = numbers.pick(8)
            room = draw_room(numbers, 16)
            units = []
            for _ in range(count):
                drawn = numbers.draw()
                units.append(drawn if numbers.pick(32) == 0 else drawn >> (64 - run.units.width))
            given = run.feed(units, room)
        digest.add(len(given))
        out[:len(given)] = given
    except Refused as refusal:
        refused = 1
        digest.add(1000 + refusal.number)
        digest.add(refusal.detail)
    for number in out + [run.taken, run.handed_out, run.inside(), run.cycles]:
        digest.add(number)
    return refused


def runs_check():
    numbers = Numbers(2026)
    for index in range(400):
        if index % 2 == 0:
            cartridge = Cartridge(Dea(numbers.draw()), 1)
        else:
            cartridge = Cartridge(Triple(Dea(numbers.draw()), Dea(numbers.draw()), Dea(numbers.draw())), 3)
        digest, calls, refused, cycles = Digest(), 0, 0, 0
        for _ in range(1 + numbers.pick(3)):
            code = 1 + numbers.pick(11)
            ivs = [numbers.draw(), numbers.draw(), numbers.draw()]
            enciphering = numbers.pick(2) == 0
            run = Run(cartridge, code, enciphering, ivs[:MODES[code][2]])
            for _ in range(1 + numbers.pick(8)):
                calls += 1
                refused += one_call(run, numbers, digest)
            cycles += run.cycles
            digest.add(cartridge.count)
        yield (f"list {index}: calls {calls}, refused {refused}, units {cartridge.count}, cycles {cycles}, "
               f"digest {digest.value:016X}")


# ---- mode_vectors

NAMES = {1: "TECB", 2: "TCBC", 3: "TCBC-I", 4: "TCFB", 5: "TCFB", 6: "TCFB", 7: "TCFB-P", 8: "TCFB-P", 9: "TCFB-P",
         10: "TOFB", 11: "TOFB-I"}
TEXT = b"Now is the time for all good men to come to the aid of t"
VALUES = [0x1234567890ABCDEF, 0x6789ABCDE6012344, 0xBCDF01233B567899]


def text_units(width):
    if width == 64:
        return [int.from_bytes(TEXT[i:i + 8], "big") for i in range(0, 56, 8)]
    if width == 8:
        return list(TEXT[:12])
    return [TEXT[i // 8] >> (7 - i % 8) & 1 for i in range(16)]


def vector(code, keys, units):
    width = MODES[code][1]
    run = Run(Cartridge(Triple(*[Dea(key) for key in keys]), 3), code, True, VALUES[:MODES[code][2]])
    sent = run.feed(units, len(units)) + run.drain(16)
    digits = {64: 16, 8: 2, 1: 1}[width]
    return f"{code} {NAMES[code]}: " + " ".join(f"{unit:0{digits}X}" for unit in sent) + ", received again: true"


def answer_line(what, call):
    try:
        return f"{what}: {len(call())} handed out"
    except Refused as refusal:
        return f"{what}: refused {refusal.number} {refusal.detail}"


def mode_vectors():
    keys = [0x0123456789ABCDEF, 0x23456789ABCDEF01, 0x456789ABCDEF0123]
    for code in MODES:
        yield vector(code, keys, text_units(MODES[code][1]))
    yield vector(1, [0x0123456789ABCDEF, 0xFEDCBA9876543210, 0x0123456789ABCDEF], text_units(64)[:4])
    cartridge = Cartridge(Dea(1), 3)
    cartridge.count = LIMIT - 1
    yield f"units taken: {cartridge.count}"
    run = Run(cartridge, 1, True, [])
    yield answer_line("two units more", lambda: run.feed([1, 2], 4096))
    yield answer_line("one unit more", lambda: run.feed([1], 4096))
    yield answer_line("another", lambda: run.feed([1], 4096))
    yield f"count: {cartridge.count}"
    short = Run(Cartridge(Dea(1), 3), 1, True, [])
    short.feed([1, 2], 2)
    yield answer_line("no units, two inside, no place for output", lambda: short.feed([], 0))


def main():
    wanted = {"runs_check": runs_check, "mode_vectors": mode_vectors}
    same = True
    for name, lines in wanted.items():
        path = TOP / "crates" / name / "stdout"
        text = "".join(line + "\n" for line in lines())
        if sys.argv[1:] == ["write"]:
            path.write_text(text)
        elif path.read_text() != text:
            same = False
            print(f"model: {name} prints something else than the model says")
    if same:
        print("model: the programs' outputs are what the model says")
    return 0 if same else 1


if __name__ == "__main__":
    sys.exit(main())
