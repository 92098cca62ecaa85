#!/usr/bin/env python3
"""Random traces from a seed: deep, random-number and damaged ones, and headings.

`traces.py KIND SEED` writes one trace; KIND is deep, random, damaged or heading.
The deep ones follow roughly what the memory holds, only to choose arguments
that are mostly accepted. Nothing here says what an answer should be.
"""

import random
import sys
from collections import namedtuple

LIMIT = 65536
LINE = 42
SPANS = {1: 4294967288, 2: 65536}
WIDTHS = (2, 3, 3, 12, 21)
NEEDS = {1: "ap", 2: "a", 3: "abp", 4: "abpq", 5: "abp", 6: "ap", 7: "apq",
         8: "ab", 9: "ab", 10: "abp", 11: "", 12: "p", 13: "", 14: "a", 15: ""}
EDGES = [0, 1, 2, 3, 4, 5, 7, 8, 9, 15, 16, 17, 31, 32, 47, 48, 62, 63, 64, 65,
         127, 128, 255, 256, 257, 504, 511, 512, 513, 1024, 4087, 4088, 4089,
         4095, 4096, 4097, 8176, 8177, 8191, 8192, 8193, 16352, 16353, 32704,
         32705, 65408, 65409, 65528, 65535, 65536, 65537, 2**31 - 1, 2**31,
         2**32 - 16, 2**32 - 9, 2**32 - 8, 2**32 - 7, 2**32 - 1]
WIDE = EDGES + [2**32, 2**32 + 8, 2**33, 2**63 - 1, 2**63, 2**64 - 2**32,
                2**64 - 65536, 2**64 - 8, 2**64 - 1]

Cap = namedtuple("Cap", "base top addr rights serial")


def line(code=None, a=None, b=None, p=None, q=None):
    fields = (code, a, b, p, q)
    text = "".join(("" if v is None else str(v)).rjust(w) for v, w in zip(fields, WIDTHS))
    return text.encode("latin-1")


def pick_first(rng, form, count):
    """A first granule number: 0, middle, near, at or past the span's end."""
    end = SPANS[form] // 8
    kind = rng.randrange(10)
    if kind < 2:
        return 0
    if kind < 5:
        return rng.randrange(max(1, end - count)) & -rng.choice([1, 1, 8, 64, 4096, 8192])
    if kind < 7:
        return max(0, end - count - rng.choice([0, 1, 2, 5, 100]))
    if kind < 9:
        return max(0, end - max(1, count - rng.choice([0, 1, 2, 7, count // 3, count // 2])))
    return rng.choice([1, 3, 5, 511, 8191 if form == 1 else 4097, end - 1])


def remark(rng):
    kind = rng.randrange(5)
    if kind == 0:
        return b"*"
    if kind == 1:
        return b"*" + bytes(rng.choice(b"abc 019*") for _ in range(40))
    if kind == 2:
        text = bytes(rng.randrange(256) for _ in range(rng.randrange(60)))
        return b"*" + text.replace(b"\n", b"\r")
    if kind == 3:
        return b"*" + line(rng.randrange(1, 16), 0)[1:]
    return b"* remark"


def random_bytes(rng, count):
    return bytes(rng.randrange(256) for _ in range(count))


def joined(rng, lines, limit=LIMIT):
    """The lines as a trace of at most limit bytes."""
    data = b"\n".join(lines) + (b"\n" if rng.random() < 0.7 else b"")
    if len(data) > limit:
        data = data[:limit]
    return data


# ---- deep traces ----

class Deep:
    def __init__(self, rng, form=None, store=None, limit=None, count=None, first=None, calm=False):
        self.rng = rng
        self.form = form or rng.choice([1, 2])
        self.store = store or rng.choice([1, 2])
        if limit is None:
            limit = LIMIT if rng.random() < 0.5 else rng.randrange(2000, LIMIT)
        self.limit = limit
        if count is None:
            count = rng.choice([8192, 8192, 8191, 4096, 1024, 600, 513, 256, 200, 100, 80, 70,
                                64, 40, 24, rng.randrange(1, 8193), rng.randrange(1, 200)])
        self.count = count
        self.first = pick_first(rng, self.form, count) if first is None else first
        self.wide = not calm and rng.random() < 0.15
        if self.wide:
            self.count = 8192
            self.first = 8192 * rng.choice([0, rng.randrange(65535)]) if self.form == 1 else 0
        self.low = 8 * self.first
        self.usable = max(0, min(self.count, SPANS[self.form] // 8 - self.first))
        self.slots = [None] * 16
        self.mem = {}       # address of a tagged granule: what it holds
        self.blocks = {}    # serial: [start, end, state]
        self.serial = 1
        self.cursor = None
        self.lines = []
        self.size = 0
        self.bad = 0.0 if calm else rng.choice([0.02, 0.05, 0.1, 0.2])
        self.noise = 0.0 if calm else rng.choice([0, 0, 0.01, 0.03])
        self.mode = rng.choice(["tiny", "small", "mixed", "large", "all", "all"])
        self.pace = rng.choice([1, 2, 3, 6])
        weights = {"alloc": 10, "free": 6, "derive": 14, "data": 14, "fetch": 10, "put": 10,
                   "copy": 12, "sweep": 8 * self.pace, "ask": 4, "show": 5}
        for name in weights:
            weights[name] *= rng.choice([0.5, 1, 1, 2])
        if rng.random() < 0.15:
            weights["free"] = 1
            weights["alloc"] *= 3
        self.names = [getattr(self, name) for name in weights]
        self.weights = list(weights.values())

    # what the format carries, and its units

    def carried(self, base, top, addr):
        if not base < top <= SPANS[self.form]:
            return False
        if self.form == 2:
            return addr <= 65535
        e = 0
        while e < 14 and (base | top) % (2 << e) == 0:
            e += 1
        return top - base <= 511 << e and base <= addr < base + (512 << e)

    def unit(self, size):
        unit = 8
        while self.form == 1 and size > 511 * unit:
            unit *= 2
        return unit

    # emitting, and following what happens

    def emit(self, text):
        self.lines.append(text)
        self.size += len(text) + 1

    def full(self):
        return self.size + 4 * LINE > self.limit

    def do(self, code, a=None, b=None, p=None, q=None):
        self.emit(line(code, a, b, p, q))
        if (a or 0) <= 15 and (b or 0) <= 15:
            self.follow(code, a, b, p, q)

    def state(self, cap):
        return self.blocks[cap.serial][2]

    def room(self, size):
        unit = self.unit(size)
        size = -(-size // unit) * unit
        start = -(-self.low // unit) * unit
        for low, high, _ in sorted(self.blocks.values()):
            if start + size <= low:
                break
            start = max(start, -(-high // unit) * unit)
        if start + size > self.low + 8 * self.usable:
            return None
        return start, start + size

    def clear(self, start, end):
        if (end - start) // 8 > len(self.mem):
            for g in [g for g in self.mem if start - 7 <= g < end]:
                del self.mem[g]
        else:
            for g in range(start & ~7, end, 8):
                self.mem.pop(g, None)

    def follow(self, code, a, b, p, q):
        slots = self.slots
        x = slots[a] if a is not None else None
        y = slots[b] if b is not None else None
        if code == 1:
            if 0 < p <= 65536 and len(self.blocks) < 64:
                place = self.room(p)
                if place:
                    self.blocks[self.serial] = [*place, "live"]
                    slots[a] = Cap(place[0], place[1], place[0], 63, self.serial)
                    self.serial += 1
                    self.clear(*place)
        elif code == 2:
            if x and self.state(x) == "live" and self.blocks[x.serial][:2] == [x.base, x.top]:
                self.blocks[x.serial][2] = "freed"
        elif code == 3:
            if y and self.carried(y.base, y.top, p):
                slots[a] = y._replace(addr=p)
        elif code == 4:
            if y and q and y.base <= p and p + q <= y.top and self.carried(p, p + q, p):
                slots[a] = y._replace(base=p, top=p + q, addr=p)
        elif code == 5:
            if y and p <= 63:
                slots[a] = y._replace(rights=y.rights & p)
        elif code == 7:
            if p in (1, 2, 4, 8) and x and x.rights & 2 and self.inside(x, p):
                self.clear(x.addr, x.addr + p)
        elif code == 8:
            if y and y.rights & 4 and y.addr % 8 == 0 and self.inside(y, 8):
                held = self.mem.get(y.addr)
                slots[a] = held if held and self.state(held) != "condemned" else None
        elif code == 9:
            if x and x.rights & 8 and x.addr % 8 == 0 and self.inside(x, 8):
                if y is None:
                    self.mem.pop(x.addr, None)
                elif y.rights & 16 or x.rights & 32:
                    self.mem[x.addr] = y
        elif code == 10:
            if x and y and x.rights & 2 and y.rights & 1 and p \
                    and self.inside(x, p) and self.inside(y, p):
                self.follow_copy(x, y, p)
        elif code == 11:
            if self.cursor is None:
                for block in self.blocks.values():
                    if block[2] == "freed":
                        block[2] = "condemned"
                self.slots = [s if s and self.state(s) != "condemned" else None for s in slots]
                self.cursor = 0
        elif code == 12:
            if self.cursor is not None:
                step = min(p, self.usable - self.cursor)
                start = self.low + 8 * self.cursor
                for g in [g for g in self.mem if start <= g < start + 8 * step]:
                    if self.state(self.mem[g]) == "condemned":
                        del self.mem[g]
                self.cursor += step
        elif code == 13:
            if self.cursor == self.usable:
                self.blocks = {s: v for s, v in self.blocks.items() if v[2] != "condemned"}
                self.mem = {g: c for g, c in self.mem.items() if c.serial in self.blocks}
                self.cursor = None

    def follow_copy(self, x, y, p):
        found = {}
        if x.addr % 8 == y.addr % 8 and x.rights & 8 and y.rights & 4:
            for g, c in self.mem.items():
                if y.addr <= g and g + 8 <= y.addr + p and (c.rights & 16 or x.rights & 32) \
                        and self.state(c) != "condemned":
                    found[g + x.addr - y.addr] = c
        self.clear(x.addr, x.addr + p)
        self.mem.update(found)

    @staticmethod
    def inside(cap, length):
        return cap.base <= cap.addr and cap.addr + length <= cap.top

    # choosing

    def target(self):
        """A slot to overwrite; slot 15 mostly keeps the index of blocks."""
        return self.rng.randrange(15) if self.rng.random() < 0.99 else 15

    def tagged(self, want=lambda c: True):
        found = [i for i, c in enumerate(self.slots) if c and want(c)]
        return self.rng.choice(found) if found else None

    def point(self, slot, addr):
        if self.slots[slot].addr != addr:
            self.do(3, slot, slot, addr)

    def granules_in(self, cap):
        return range(-(-cap.base // 8) * 8, cap.top // 8 * 8, 8)

    def held_in(self, cap, want=lambda c: True):
        return [g for g, c in self.mem.items() if cap.base <= g and g + 8 <= cap.top and want(c)]

    def pick_size(self):
        rng = self.rng
        room = max(8, 8 * self.usable)
        mode = self.mode if self.mode != "all" else rng.choice(["tiny", "small", "mixed", "large"])
        if mode == "tiny":
            return rng.randrange(1, 17)
        if mode == "small":
            return rng.randrange(1, 129)
        if mode == "mixed":
            return max(1, min(65536, int((room / 3 + 8) ** rng.random())))
        edges = [n for n in EDGES if 256 <= n <= min(room, 65536)]
        if edges and rng.random() < 0.6:
            return rng.choice(edges)
        return min(65536, rng.randrange(1, room + 1))

    # what to do next

    def alloc(self):
        a = self.target()
        if self.slots[15] is None and self.rng.random() < 0.8:
            self.do(1, 15, None, max(8, min(1024, 8 * self.usable // 4)))
            return
        size = self.pick_size()
        if (len(self.blocks) == 64 or self.room(size) is None) and self.rng.random() < 0.7:
            return
        self.do(1, a, None, size)
        if self.slots[15] and self.slots[a] and self.rng.random() < 0.8 and not self.full():
            self.stash(a)

    def stash(self, slot):
        """Keeps a capability in a free place of the index."""
        index = self.slots[15]
        if index is None or index.rights & 40 != 40:
            return
        places = [g for g in self.granules_in(index) if g not in self.mem]
        if places:
            self.point(15, self.rng.choice(places[:70]))
            self.do(9, 15, slot)

    def free(self):
        rng = self.rng

        def whole(c):
            block = self.blocks[c.serial]
            return block[2] == "live" and block[:2] == [c.base, c.top]

        index = self.slots[15]
        keep = index.serial if index and rng.random() < 0.97 else None
        slot = self.tagged(lambda c: whole(c) and c.serial != keep)
        if index and index.rights & 4 and (slot is None or rng.random() < 0.5):
            held = self.held_in(index, lambda c: whole(c) and c.serial != keep)
            if held:
                slot = self.target()
                self.point(15, rng.choice(held))
                self.do(8, slot, 15)
                if rng.random() < 0.5:
                    self.do(9, 15, 14)
        if slot is not None:
            self.do(2, slot)

    def derive(self):
        rng = self.rng
        b = self.tagged()
        if b is None:
            return
        c = self.slots[b]
        a = self.target()
        kind = rng.randrange(3)
        size = c.top - c.base
        if kind == 0:
            where = rng.random()
            if where < 0.6:
                addr = c.base + rng.randrange(size)
                if rng.random() < 0.6:
                    addr &= ~7
            else:
                addr = rng.choice([c.base, c.top - 1, c.top, c.top - 8, c.base + 511, c.base + 512,
                                   c.base + 4095, c.base + 4096, c.base - 1,
                                   c.base + rng.choice([1, 2, 4, 8, 16, 32, 64]) * 512 - rng.randrange(2)])
            if 0 <= addr < 2**32:
                self.do(3, a, b, addr)
        elif kind == 1:
            if rng.random() < 0.3:
                base, length = c.base, size
            else:
                base = c.base + rng.randrange(size)
                length = rng.randrange(1, c.top - base + 1)
                if rng.random() < 0.6:
                    length = min(length, rng.choice([1, 8, 16, 64, 511, 512]))
                if rng.random() < 0.5:
                    grain = rng.choice([8, 8, 16, 64, 4096, 16384, 32768])
                    base = max(c.base, base // grain * grain)
                    length = min(c.top - base, -(-length // grain) * grain)
                elif rng.random() < 0.3:
                    self.narrow_at_limit(a, b)
                    return
            if length > 0 and (self.carried(base, base + length, base) or rng.random() < 0.2):
                self.do(4, a, b, base, length)
        else:
            mask = rng.choice([63, 63, 47, 31, 15, 61, 62, 59, 55, 51, rng.randrange(64)])
            self.do(5, a, b, mask)

    def narrow_at_limit(self, a, b):
        """A length just carried or just not, or high powers of two."""
        rng = self.rng
        c = self.slots[b]
        grain = 2 ** rng.choice([0, 1, 2, 3, 4, 5, 6, 7])
        length = grain * rng.choice([510, 511, 512, 513])
        if rng.random() < 0.3:
            grain = 2 ** rng.randrange(11, 16)
            length = grain * rng.randrange(1, 5)
        first, last = -(-c.base // grain), (c.top - length) // grain
        if last >= first:
            self.do(4, a, b, rng.randrange(first, last + 1) * grain, length)
            if rng.random() < 0.5 and self.slots[a]:
                self.show(a)

    def data(self):
        rng = self.rng
        put = rng.random() < 0.45
        slot = self.tagged(lambda c: c.rights & (2 if put else 1) and c.top > c.base)
        if slot is None:
            return
        c = self.slots[slot]
        width = rng.choice([1, 2, 4, 8, 8])
        while width > c.top - c.base:
            width //= 2
        if not self.inside(c, width) or rng.random() < 0.4:
            if not put and rng.random() < 0.5:
                held = self.held_in(c)
                addr = rng.choice(held) if held else c.base + rng.randrange(c.top - c.base - width + 1)
            elif rng.random() < 0.2:
                addr = c.top - width
            else:
                addr = c.base + rng.randrange(c.top - c.base - width + 1)
            if addr + width > c.top:
                addr = c.top - width
            self.point(slot, addr)
        if put:
            value = rng.choice([rng.getrandbits(64), rng.choice(WIDE), rng.randrange(256),
                                rng.getrandbits(60)])
            self.do(7, slot, None, width, value)
        else:
            self.do(6, slot, None, width)

    def fetch(self):
        rng = self.rng
        b = self.tagged(lambda c: c.rights & 4 and len(self.granules_in(c)) > 0)
        if b is None:
            return
        c = self.slots[b]
        held = self.held_in(c)
        if self.cursor is not None and rng.random() < 0.6:
            held = [g for g in held if self.state(self.mem[g]) == "condemned"] or held
        if held and rng.random() < 0.85:
            self.point(b, rng.choice(held))
        elif c.addr % 8 or not self.inside(c, 8):
            self.point(b, rng.choice(self.granules_in(c)))
        self.do(8, self.target(), b)

    def put(self):
        rng = self.rng
        a = self.tagged(lambda c: c.rights & 8 and len(self.granules_in(c)) > 0)
        if a is None:
            return
        c = self.slots[a]
        if c.addr % 8 or not self.inside(c, 8) or rng.random() < 0.4:
            self.point(a, rng.choice(self.granules_in(c)))
        local = c.rights & 32
        b = self.tagged(lambda d: local or d.rights & 16)
        if b is None or rng.random() < 0.15:
            b = rng.randrange(16)
        self.do(9, a, b)

    def show(self, slot=None):
        """Puts a slot into memory and loads it, so that its word is seen."""
        rng = self.rng
        a = self.tagged(lambda c: c.rights & 41 == 41 and len(self.granules_in(c)) > 0)
        if a is None:
            return
        c = self.slots[a]
        if c.addr % 8 or not self.inside(c, 8):
            self.point(a, rng.choice(self.granules_in(c)))
        self.do(9, a, rng.randrange(16) if slot is None else slot)
        self.do(6, a, None, 8)

    def copy(self):
        rng = self.rng
        a = self.tagged(lambda c: c.rights & 2)
        b = self.tagged(lambda c: c.rights & 1)
        if rng.random() < 0.4:
            rich = self.tagged(lambda c: c.rights & 5 == 5 and self.held_in(c))
            b = rich if rich is not None else b
        if a is None or b is None:
            return
        if rng.random() < 0.25 and self.slots[b].rights & 2:
            a = b
            if rng.random() < 0.8:
                a = self.target()
                self.do(3, a, b, self.slots[b].addr)
        x, y = self.slots[a], self.slots[b]
        if x is None or y is None:
            return
        most = min(x.top - x.base, y.top - y.base)
        length = rng.choice([1, 3, 7, 8, 9, 15, 16, 17, 23, 24, 31, 32, 40, 64, 100, 256,
                             rng.randrange(most + 1), most])
        if length > 2048 and rng.random() < 0.6:
            length = rng.randrange(256)
        length = min(length, most)
        source = y.base + rng.randrange(y.top - y.base - length + 1)
        held = self.held_in(y)
        if held and rng.random() < 0.7:
            source = rng.choice(held) - rng.choice([0, 0, 0, 1, 7, 8, 9, 16])
            source = max(y.base, min(source, y.top - length))
        target = x.base + rng.randrange(x.top - x.base - length + 1)
        if rng.random() < 0.45:
            target = source + rng.choice([-64, -24, -16, -9, -8, -7, -1, 0, 1, 7, 8, 8, 9, 16, 24, 64])
        if rng.random() < 0.75:
            target += (source - target) % 8
        target = max(x.base, min(target, x.top - length))
        if a == b:
            self.point(a, target)
        else:
            self.point(b, source)
            self.point(a, target)
        self.do(10, a, b, length)

    def sweep(self):
        rng = self.rng
        if self.cursor is None:
            freed = any(block[2] == "freed" for block in self.blocks.values())
            if freed and rng.random() < 0.3 or rng.random() < 0.02:
                self.do(11)
        elif self.cursor < self.usable:
            step = rng.choice([0, 1, 2, 7, 64, self.usable // 16, self.usable // 8,
                               self.usable // 4, self.usable // 4, self.usable - self.cursor])
            if rng.random() < 0.06:
                step = rng.choice([2**32 - 1, 2**31, self.usable, 8192, 8193])
            self.do(12, None, None, step)
        elif rng.random() < 0.6:
            self.do(13)
        elif rng.random() < 0.2:
            self.do(12, None, None, rng.choice([0, 1, 5]))

    def ask(self):
        slot = self.tagged()
        if slot is not None and self.rng.random() < 0.6:
            self.do(14, slot)
        else:
            self.do(15)

    def wrong(self):
        """A call that is likely refused."""
        rng = self.rng
        kind = rng.randrange(13)
        code = rng.randrange(1, 16)
        if kind == 0:
            code = rng.choice([c for c in NEEDS if "a" in NEEDS[c]])
            args = self.fill(code)
            name = rng.choice([n for n in "ab" if n in NEEDS[code]])
            args[name] = rng.choice([16, 17, 31, 32, 99, 100, 256, 999])
            self.do(code, **args)
        elif kind == 1:
            code = rng.choice([1, 4, 5, 6, 7])
            args = self.fill(code)
            if code == 1:
                args["p"] = rng.choice([0, 65537, 65536, 2**32 - 1])
            elif code == 4:
                args["q"] = 0
            elif code == 5:
                args["p"] = rng.choice([64, 65, 127, 255, 256, 2**32 - 1])
            else:
                args["p"] = rng.choice([0, 3, 5, 6, 7, 9, 10, 16, 257, 258, 264, 2**32 - 1])
            self.do(code, **args)
        elif kind == 2:
            empty = [i for i in range(16) if self.slots[i] is None]
            if empty:
                code = rng.choice([2, 3, 4, 5, 6, 7, 8, 9, 10, 14])
                args = self.fill(code)
                args[rng.choice([n for n in "ab" if n in NEEDS[code]])] = rng.choice(empty)
                self.do(code, **args)
        elif kind == 3:
            code, need, name = rng.choice([(6, 1, "a"), (7, 2, "a"), (8, 4, "b"), (9, 8, "a"),
                                           (9, 32, "a"), (10, 1, "b"), (10, 2, "a")])
            slot = self.tagged(lambda c: not c.rights & need)
            if slot is not None:
                args = self.fill(code)
                args[name] = slot
                if need == 32:
                    local = self.tagged(lambda c: not c.rights & 16)
                    args["b"] = local if local is not None else args["b"]
                self.do(code, **args)
        elif kind == 4:
            code = rng.choice([8, 9])
            slot = self.tagged(lambda c: c.rights & (4 if code == 8 else 8))
            if slot is not None:
                c = self.slots[slot]
                self.point(slot, c.base + rng.randrange(c.top - c.base))
                args = self.fill(code)
                args["b" if code == 8 else "a"] = slot
                self.do(code, **args)
        elif kind == 5:
            slot = self.tagged()
            if slot is not None:
                c = self.slots[slot]
                self.point(slot, rng.choice([c.top, c.top - 1, c.top - 2, c.top - 4, c.top - 7,
                                             max(0, c.base - 1), c.top // 8 * 8, c.base // 8 * 8]))
                code = rng.choice([6, 7, 8, 9, 10])
                args = self.fill(code)
                args["b" if code == 8 else "a"] = slot
                self.do(code, **args)
        elif kind == 6:
            slot = self.tagged()
            if slot is not None:
                c = self.slots[slot]
                base = rng.choice([max(0, c.base - 1), max(0, c.base - 8), c.base, c.base + 1, c.top - 1,
                                   c.top])
                length = rng.choice([1, c.top - base, c.top - base + 1, c.top - c.base, 2**64 - 1,
                                     2**64 - base, 2**64 - base + c.top, 2**32 - base, 2**32, 1 + c.top])
                if 0 <= length < 2**64 and base < 2**32:
                    self.do(4, self.target(), slot, base, length)
        elif kind == 7:
            slot = self.tagged()
            if slot is not None:
                c = self.slots[slot]
                e = 0
                while e < 14 and (c.base | c.top) % (2 << e) == 0:
                    e += 1
                reach = c.base + (512 << e)
                addr = rng.choice([reach, reach - 1, reach + 1, c.base - 1, c.base, 0, 65535, 65536,
                                   2**32 - 1, rng.getrandbits(32)])
                if 0 <= addr < 2**32:
                    self.do(3, self.target(), slot, addr)
        elif kind == 8:
            slot = self.tagged(lambda c: self.state(c) != "live" or self.blocks[c.serial][:2] != [c.base, c.top])
            if slot is not None:
                self.do(2, slot)
        elif kind == 9:
            self.do(rng.choice([11, 13, 13]))
        elif kind == 10:
            self.do(12, None, None, rng.choice(EDGES))
        elif kind == 11:
            self.do(1, self.target(), None, rng.choice([1, 8, 4089, 65409, 65536, 8 * self.count % 65536 + 1]))
        else:
            self.do(code, **self.fill(code))

    def fill(self, code):
        """Some arguments that a call needs, not all sensible."""
        rng = self.rng
        args = {}
        for name in NEEDS[code]:
            if name in "ab":
                slot = self.tagged()
                args[name] = slot if slot is not None and rng.random() < 0.8 else rng.randrange(16)
            elif name == "p":
                if code in (6, 7):
                    args[name] = rng.choice([1, 2, 4, 8])
                elif code in (3, 4) and rng.random() < 0.7:
                    args[name] = min(2**32 - 1, self.low + rng.randrange(8 * self.usable + 9))
                elif code == 5:
                    args[name] = rng.randrange(64)
                elif code == 10:
                    args[name] = rng.choice([0, 1, 8, 16, 20])
                else:
                    args[name] = rng.choice(EDGES)
            else:
                args[name] = rng.choice(WIDE) if rng.random() < 0.5 else rng.randrange(1, 600)
        return args

    def make(self):
        rng = self.rng
        self.emit(line(self.form, self.store, None, self.count, self.first))
        if self.wide or rng.random() < 0.6:
            size = max(1, min(65536, 8 * self.usable))
            a = self.target()
            sizes = [n for n in (4089, 4096, 8177, 16384, size // 2) if n < size] + [size, (size + 1) // 2]
            self.do(1, a, None, rng.choice([32768, 65409, 65536] if self.wide else sizes))
            if self.slots[a]:
                self.show(a)
                self.narrow_at_limit(self.target(), a)
        while not self.full():
            if rng.random() < self.noise:
                self.emit(rng.choice([remark(rng), damaged_line(rng)]))
            elif rng.random() < self.bad:
                self.wrong()
            else:
                rng.choices(self.names, self.weights)[0]()
            if self.usable == 0 and len(self.lines) > 150:
                break
        return self.lines


def deep(rng, **options):
    lines = Deep(rng, **options).make()
    data = b"\n".join(lines) + b"\n"
    if len(data) < LIMIT - 1 and rng.random() < 0.1 and not options:
        data += b"*" + b"." * (LIMIT - len(data) - 2) + b"\n"
    assert len(data) <= LIMIT
    return data


# ---- random-number traces ----

def number(rng, low, table, bits):
    kind = rng.randrange(4)
    if kind == 0:
        return rng.choice(table)
    if kind == 1:
        return min(2**32 - 1, low + rng.randrange(300))
    if kind == 2:
        return rng.randrange(70)
    return rng.getrandbits(rng.randrange(1, bits + 1))


def random_numbers(rng):
    form, store = rng.choice([1, 2]), rng.choice([1, 2])
    count = rng.choice([0, 1, 2, 3, 8, 64, 512, 8191, 8192, rng.randrange(8193)])
    end = SPANS[form] // 8
    first = rng.choice([0, 1, pick_first(rng, form, count), pick_first(rng, form, count), end - 1, end,
                        end + 1, 2**29 - 1, 2**29, 2**31, 2**32 - 1, rng.getrandbits(32)])
    low = 8 * first
    lines = [line(form, store, None, count, first)]
    busy = rng.choice([0.05, 0.2, 0.4])
    for _ in range(rng.randrange(20, 700)):
        if rng.random() < busy:
            lines.append(line(1, rng.randrange(16), None, rng.choice([1, 8, 16, 40, 64, 256])))
            continue
        code = rng.randrange(18) if rng.random() < 0.1 else rng.randrange(1, 16)
        needs = NEEDS.get(code, "ap")
        if rng.random() < 0.03:
            needs = "".join(n for n in "abpq" if rng.random() < 0.5)
        top = 18 if rng.random() < 0.05 else 16
        args = {}
        if "a" in needs:
            args["a"] = rng.randrange(top)
        if "b" in needs:
            args["b"] = rng.randrange(top)
        if "p" in needs:
            args["p"] = number(rng, low, EDGES, 32)
            if code in (6, 7) and rng.random() < 0.7:
                args["p"] = rng.choice([1, 2, 4, 8])
        if "q" in needs:
            args["q"] = number(rng, low, WIDE, 64)
        lines.append(line(code, **args))
    return joined(rng, lines)


# ---- damaged traces ----

def damaged_field(rng, width, top):
    """The columns of one field: blank, good, too large or malformed."""
    kind = rng.randrange(16)
    if kind < 3:
        text = b""
    elif kind < 8:
        text = str(rng.choice([0, 1, 2, 3, 8, 15, 16])).encode()[:width]
    elif kind < 10:
        text = str(rng.choice([top, top + 1, top + 1, max(0, top - 1), 10**width - 1,
                               10**(width - 1)])).encode()
    elif kind == 10:
        text = b"0" + str(rng.randrange(10)).encode()
    elif kind == 11:
        text = str(rng.randrange(10)).encode() + b" " * rng.randrange(1, width)
    elif kind == 12:
        text = (b"1 2" if width > 2 else b" ") if rng.random() < 0.5 else b"0" * width
    elif kind == 13:
        text = rng.choice([b"+1", b"-1", b"1.", b"x", b"a", b"\t", b"\r", b"\0", b"1\0", b"/", b":",
                           b"*", b"\xff", b"\xb2", b"\xa0", b"1_", b"0x"])
    elif kind == 14:
        text = random_bytes(rng, width).replace(b"\n", b"\x0b")
    else:
        text = bytes(rng.choice(b" 01239") for _ in range(width))
    return text[:width].rjust(width)


def damaged_line(rng, heading=False):
    kind = rng.randrange(7)
    if kind == 0:
        good = line(rng.randrange(1, 16), rng.randrange(16), None, 8)
        length = rng.choice([0, 1, 2, 20, 30, 39, 40, 42, 43, 82, 83, rng.randrange(200)])
        text = (good + b" " * 200)[:length]
        return rng.choice([text, good + b"\r", b" " + good, good.rstrip(), text])
    if kind == 1:
        # One bad field in a line that is good otherwise.
        code = rng.randrange(1, 3) if heading else rng.randrange(1, 16)
        needs = "apq" if heading else NEEDS[code]
        values = {n: rng.randrange(1, 3) for n in needs}
        text = bytearray(line(code, **values))
        field = rng.randrange(5)
        start = (0, 2, 5, 8, 20)[field]
        width = WIDTHS[field]
        top = ((2, 2, 0, 8192, 2**32 - 1) if heading else (15, 15, 15, 2**32 - 1, 2**64 - 1))[field]
        text[start:start + width] = damaged_field(rng, width, top)
        return bytes(text)
    if kind == 2:
        return random_bytes(rng, 41).replace(b"\n", b" ")
    if kind == 3:
        # Needed fields missing and others filled.
        code = rng.choice([None, rng.randrange(1, 3 if heading else 16), rng.randrange(100)])
        values = {n: rng.randrange(1, 3) for n in "abpq" if rng.random() < 0.6}
        return line(code, **values)
    if kind == 4:
        code = rng.randrange(1, 3) if heading else rng.randrange(1, 16)
        needs = "apq" if heading else NEEDS[code]
        names = set(needs) ^ {rng.choice("abpq")}
        return line(code, **{n: rng.randrange(1, 3) for n in names})
    tops = (2, 2, 0, 8192, 2**32 - 1) if heading else (15, 15, 15, 2**32 - 1, 2**64 - 1)
    if kind == 5:
        # Well-formed fields, some too large.
        return line(*(rng.choice([None, 1, 2, t, t + 1, 10**w - 1]) for w, t in zip(WIDTHS, tops)))
    return b"".join(damaged_field(rng, w, t) for w, t in zip(WIDTHS, tops))


def headings(rng):
    """One heading, mostly bad, with little after it."""
    if rng.random() < 0.7:
        head = damaged_line(rng, True)
    elif rng.random() < 0.8:
        head = line(*(rng.choice([good, good, None, bad]) for good, bad in
                      ((1, rng.choice([0, 3, 12])), (2, rng.choice([0, 3, 112])), (None, 1),
                       (8192, 8193), (2**32 - 1, 2**32))))
    else:
        head = rng.choice([remark(rng), b"", b" " * 41])
    return joined(rng, [head] + [line(15)] * rng.randrange(3))


def damaged(rng):
    kind = rng.randrange(12)
    if kind < 2:
        return rng.choice([b"", b"\n", b"\n\n", b" \n", b"*", b"*\n", b"\r\n", b"\0", b"\n" * 700,
                           b" " * LIMIT, b"*" * LIMIT, b"\n" * LIMIT if rng.random() < 0.02 else b"\n\n\n"])
    if kind < 4:
        length = rng.choice([LIMIT + 1, LIMIT + 1, LIMIT + 2, LIMIT + 42, 2 * LIMIT, 200000])
        data = deep(rng) if rng.random() < 0.5 else b""
        return (data + rng.choice([b"\n", b" ", b"*", b"\0"]) * length)[:length]
    if kind < 6:
        # Exactly the limit, cut anywhere.
        data = deep(rng, limit=rng.randrange(40000, LIMIT))
        data += remark(rng) + b"\n" + line(15) * 2000
        return data[:LIMIT]
    # Damage among good lines.
    if rng.random() < 0.6:
        lines = Deep(rng, limit=rng.randrange(2000, 40000)).make()
    else:
        lines = random_numbers(rng).split(b"\n")
    share = rng.choice([0.05, 0.2, 0.5])
    for i in range(1, len(lines)):
        if rng.random() < share:
            lines[i] = damaged_line(rng) if rng.random() < 0.85 else remark(rng)
    return joined(rng, lines)


KINDS = {"deep": deep, "random": random_numbers, "damaged": damaged, "heading": headings}


def make(kind, seed):
    return KINDS[kind](random.Random("%s %s" % (kind, seed)))


def series(seed):
    """Traces without end: pairs of a name and the bytes."""
    i = 0
    while True:
        for kind in ("deep", "heading", "heading", "random", "heading", "damaged", "deep", "heading",
                     "heading", "damaged", "heading"):
            i += 1
            yield "%s %s.%d" % (kind, seed, i), make(kind, "%s.%d" % (seed, i))


if __name__ == "__main__":
    if len(sys.argv) != 3 or sys.argv[1] not in KINDS:
        sys.exit("usage: traces.py deep|random|damaged|heading SEED")
    sys.stdout.buffer.write(make(sys.argv[1], sys.argv[2]))
