#!/usr/bin/env python3
"""What the program `queue` should print for a script, worked out from docs/RING.md, docs/PREDICATES.md, docs/BINS.md and docs/QUEUE.md.

It shares no code with the program. It keeps the slots in a plain list and finds the slot of an item by a remainder.
"""
import re
import sys

MOST = 1048576
TRAY = 64


class Refused(Exception):
    def __init__(self, number, place):
        super().__init__(f"refused {number} at {place} by ring")


class NotDone(Exception):
    pass


class Ring:
    def __init__(self, slots):
        self.slots = [0] * min(slots, MOST)
        self.n = len(self.slots)
        self.front = 0
        self.len = 0
        self.taken = []

    def slot(self, i):
        return (self.front + i) % self.n

    def items(self):
        return [self.slots[self.slot(i)] for i in range(self.len)]

    def slices(self):
        high = min(self.len, self.n - self.front)
        return self.slots[self.front:self.front + high], self.slots[:self.len - high]

    def push_back(self, x):
        if self.len == self.n:
            raise Refused(1, self.len)
        self.slots[self.slot(self.len)] = x
        self.len += 1

    def push_front(self, x):
        if self.len == self.n:
            raise Refused(1, self.len)
        self.front = (self.front + self.n - 1) % self.n
        self.slots[self.front] = x
        self.len += 1

    def pop_front(self):
        if self.len == 0:
            return None
        x = self.slots[self.front]
        self.front = self.slot(1)
        self.len -= 1
        return x

    def pop_back(self):
        if self.len == 0:
            return None
        self.len -= 1
        return self.slots[self.slot(self.len)]

    def get(self, i):
        return self.slots[self.slot(i)] if i < self.len else None

    def load(self, xs):
        if self.len > 0:
            raise Refused(3, self.len)
        if len(xs) > self.n:
            raise Refused(4, len(xs))
        self.front, self.len = 0, len(xs)
        self.slots[:len(xs)] = xs

    def swap(self, i, j):
        for k in (i, j):
            if k >= self.len:
                raise Refused(2, k)
        a, b = self.slot(i), self.slot(j)
        self.slots[a], self.slots[b] = self.slots[b], self.slots[a]

    def swap_remove(self, i, end, pop):
        if i >= self.len:
            return None
        self.swap(i, end)
        return pop()

    def truncate(self, k):
        gone = self.items()[k:]
        self.taken += gone
        self.len = min(self.len, k)
        return len(gone)

    def clear(self):
        gone = self.truncate(0)
        self.front = 0
        return gone

    def change(self, i, test):
        if i >= self.len:
            return None
        yes, self.slots[self.slot(i)] = test(self.slots[self.slot(i)])
        return yes

    def pop_if(self, i, test, pop):
        return pop() if self.change(i, test) else None

    def retain(self, test):
        yeses = 0
        for i in range(self.len):
            if self.change(i, test):
                if yeses < i:
                    self.swap(yeses, i)
                yeses += 1
        return self.truncate(yeses)

    def make_contiguous(self):
        items, n, h = self.items(), self.len, self.n - self.front
        t, e = n - h, self.n - n
        if self.front > e:
            self.front = 0 if e >= h else t if e >= t else e if h > t else 0
            self.slots[self.front:self.front + n] = items
        return f"{n} items from slot {self.front} on"

    def drawing(self):
        held = {self.slot(i) for i in range(self.len)}
        return "".join(" " + (">" if k == self.front else "") + (str(x) if k in held else ".") for k, x in enumerate(self.slots))


def shown(x):
    if x is None:
        return "none"
    return str(x).lower() if isinstance(x, bool) else str(x)


def listed(xs):
    return "".join(f" {x}" for x in xs)


def number(words, place, most):
    word = words[place - 1]
    if not (word.isascii() and word.isdigit()) or int(word) > most:
        raise NotDone(f"word {place} after the name is no number, or too large")
    return int(word)


def operands(words, count, most):
    if len(words) < count:
        raise NotDone("a number is missing")
    if len(words) > count:
        raise NotDone("there are too many words")
    return [number(words, k + 1, most) for k in range(count)]


def predicate(kind, words, place):
    """A function from an item to yes or no and the item after."""
    if kind == "mask":
        if any(c not in "01" for c in words[place - 1]):
            raise NotDone(f"word {place} after the name is no mask of 0 and 1")
        flags = iter(words[place - 1])
        return lambda x: (next(flags, "0") == "1", x)
    given = number(words, place, 255)
    if kind == "at_least":
        return lambda x: (x >= given, x)
    return lambda x: (x + given <= 255, (x + given) % 256)


def verdict(x):
    return None if x is None else "yes" if x else "no"


def done(call):
    return lambda *args: "ok" if call(*args) is None else "?"


def perform(ring, name, words):
    """Answers what the call answers, and a line of its own under it, if it prints one."""
    index, item = 2**64 - 1, 255
    plain = {
        "pop_front": ring.pop_front, "pop_back": ring.pop_back, "clear": ring.clear,
        "front": lambda: ring.get(0), "back": lambda: ring.get(max(ring.len, 1) - 1),
        "len": lambda: ring.len, "capacity": lambda: ring.n,
        "is_empty": lambda: ring.len == 0, "is_full": lambda: ring.len == ring.n,
        "slices": lambda: "ok", "iter": lambda: "ok", "draw": lambda: "ok",
        "make_contiguous": ring.make_contiguous,
    }
    ends = {"pop_front_if_": (0, ring.pop_front), "pop_back_if_": (max(ring.len, 1) - 1, ring.pop_back)}
    tested = next((prefix for prefix in [*ends, "retain_"] if name.startswith(prefix)), None)
    indexed = {
        "get": ring.get, "truncate": ring.truncate,
        "swap_remove_front": lambda i: ring.swap_remove(i, 0, ring.pop_front),
        "swap_remove_back": lambda i: ring.swap_remove(i, ring.len - 1, ring.pop_back),
    }
    if name in ("push_back", "push_front"):
        answer = done(getattr(ring, name))(*operands(words, 1, item))
    elif name == "load":
        answer = done(ring.load)([number(words, k + 1, item) for k in range(len(words))])
    elif name == "swap":
        answer = done(ring.swap)(*operands(words, 2, index))
    elif tested:
        if len(words) != 1:
            operands(words, 1, index)
        test = predicate(name.removeprefix(tested), words, 1)
        answer = ring.retain(test) if tested == "retain_" else ring.pop_if(ends[tested][0], test, ends[tested][1])
    elif name == "change":
        if len(words) != 3:
            operands(words, 3, index)
        i = number(words, 1, index)
        if words[1] not in KINDS:
            raise NotDone("word 2 after the name is no predicate")
        answer = verdict(ring.change(i, predicate(words[1], words, 3)))
    elif name in indexed:
        answer = indexed[name](*operands(words, 1, index))
    else:
        operands(words, 0, index)
        answer = plain[name]()
    if name == "iter":
        xs = ring.items()
        return answer, f"   from the front:{listed(xs)}; from the back:{listed(xs[::-1])}"
    return answer, "  " + ring.drawing() if name == "draw" else None


KINDS = ["at_least", "adding", "mask"]
NAMES = """capacity load push_back push_front pop_front pop_back get front back len is_empty is_full slices iter
swap swap_remove_front swap_remove_back truncate make_contiguous change clear close draw""".split()
NAMES += [f"{call}_{kind}" for call in ("pop_front_if", "pop_back_if", "retain") for kind in KINDS]


def check(name, words):
    """The mistakes of a line that does not reach a ring."""
    if name not in NAMES:
        raise NotDone("no call has this name")
    if name == "close":
        operands(words, 0, 0)
    elif name == "capacity" and words:
        operands(words, 1, 2**64 - 1)
    else:
        try:
            perform(Ring(0), name, words)
        except Refused:
            pass


def told(n, text, answer, ring):
    first, second = ring.slices()
    print(f"{n}: {text} -> {answer} |{listed(first)} /{listed(second)}")


def binned(ring):
    print(f"bin {len(ring.taken)}:{listed(ring.taken[:TRAY])}")


def main():
    ring, closed = None, False
    lines = sys.stdin.buffer.read().split(b"\n")
    for n, line in enumerate(lines, 1):
        text = line.decode(errors="replace").rstrip()
        words = [word for word in re.split("[ \t\r]", text) if word]
        if not words or words[0].startswith("#"):
            continue
        name, words = words[0], words[1:]
        try:
            check(name, words)
            if closed:
                raise NotDone("the ring is closed")
            if name == "capacity" and words:
                if ring:
                    raise NotDone("there is a ring already")
                ring = Ring(int(words[0]))
                told(n, text, "ok", ring)
            elif ring is None:
                raise NotDone("there is no ring yet: begin with a capacity")
            elif name == "close":
                closed = True
                told(n, text, ring.clear(), ring)
                binned(ring)
            else:
                answer, under = perform(ring, name, words)
                told(n, text, shown(answer), ring)
                if under:
                    print(under)
        except NotDone as why:
            print(f"{n}: {text} -> not done: {why}")
        except Refused as fault:
            told(n, text, fault, ring)
    if ring and not closed:
        print(f"end of the script -> {ring.clear()} | /")
        binned(ring)


main()
