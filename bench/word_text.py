"""The text of a program of words, read and run: what the scripts beside this file measure by."""
import os
import re
import subprocess

TOP = os.path.dirname(os.path.dirname(os.path.realpath(__file__)))
VEXC = os.environ.get("VEXC", f"{TOP}/vexc")
REGISTER = re.compile(r"\$([rb])(\d)\.(\d+)")
OPERATIONS = {
    "add": lambda a, b: a + b,
    "sub": lambda a, b: a - b,
    "and": lambda a, b: a & b,
    "or": lambda a, b: a | b,
    "xor": lambda a, b: a ^ b,
    "shl": lambda a, b: a << (b & 31),
    "shr": lambda a, b: signed(a) >> (b & 31),
    "shru": lambda a, b: a >> (b & 31),
    "sh2add": lambda a, b: 4 * a + b,
    "max": lambda a, b: max(signed(a), signed(b)),
    "min": lambda a, b: min(signed(a), signed(b)),
    "mpylu": lambda a, b: a * (b & 0xFFFF),
    "mpyhs": lambda a, b: a * (b >> 16) << 16,
    "div": lambda a, b: quotient(signed(a), signed(b)),
    "rem": lambda a, b: signed(a) - signed(b) * quotient(signed(a), signed(b)) if b else 0,
    "cmpeq": lambda a, b: a == b,
    "cmpne": lambda a, b: a != b,
    "cmplt": lambda a, b: signed(a) < signed(b),
    "cmple": lambda a, b: signed(a) <= signed(b),
    "cmpgt": lambda a, b: signed(a) > signed(b),
    "cmpge": lambda a, b: signed(a) >= signed(b),
    "cmpltu": lambda a, b: a < b,
    "cmpgeu": lambda a, b: a >= b,
}


def signed(number):
    return number - (1 << 32) if number >> 31 else number


def quotient(a, b):
    return 0 if b == 0 else (abs(a) // abs(b)) * (1 if (a < 0) == (b < 0) else -1)


class Operation:
    """One operation: what it reads as numbers or registers, and the register that it writes, if any."""

    def __init__(self, line):
        head, _, rest = line.partition(" ")
        self.name, _, rest = rest.partition(" ")
        self.to, self.target, self.offset = None, None, 0
        left, equals, right = rest.partition(" = ")
        if self.name == "stw":
            offset, base = re.match(r"(-?\d+)\[(\S+)\]", left).groups()
            self.offset, self.reads = int(offset), [source(base), source(right)]
        elif self.name.startswith("ldw"):
            offset, base = re.match(r"(-?\d+)\[(\S+)\]", right).groups()
            self.to, self.offset, self.reads = source(left), int(offset), [source(base)]
        elif self.name == "call":
            self.to, self.reads, self.target = "link", [], int(right[1:])
        elif self.name == "return":
            self.reads = ["link"]
        elif self.name == "mtl":
            self.to, self.reads = "link", [source(right)]
        elif self.name == "mfl":
            self.to, self.reads = source(left), ["link"]
        elif self.name in ("goto", "br", "brf"):
            words = rest.split(", ")
            self.target, self.reads = int(words[-1][1:]), [source(it) for it in words[:-1]]
        elif self.name in ("in", "more"):
            self.to, self.reads = source(rest), []
        elif self.name in ("outs", "trap"):
            self.reads = []
        elif equals:
            self.to, self.reads = source(left), [source(it) for it in right.split(", ")]
        else:
            self.reads = [source(rest)]

    def is_on_stack(self):
        return self.name[:3] in ("ldw", "stw") and self.reads[0] == ("r", 0, 1)


def source(text):
    found = REGISTER.fullmatch(text)
    return (found[1], int(found[2]), int(found[3])) if found else int(text) & 0xFFFFFFFF


class Words:
    """The text of a program of words."""

    def __init__(self, text):
        self.words, self.times, self.memory = [[]], [1], {}
        for line in text.splitlines():
            if line == ";;":
                self.words.append([])
                self.times.append(1)
            elif line.startswith("xnop "):
                self.times[-1] = int(line[5:])
            elif line.startswith(".word "):
                place, _, number = line[6:].partition(" = ")
                self.memory[int(place)] = int(number) & 0xFFFFFFFF
            elif line[0] == "c":
                self.words[-1].append(Operation(line))
        self.words.pop()

    def successors(self, place):
        """Where a run may go on in the same function."""
        last = self.words[place]
        targets = [it.target for it in last if it.name in ("goto", "br", "brf")]
        ends = any(it.name in ("goto", "return", "trap", "halt") for it in last)
        return targets if ends else [*targets, place + 1]

    def most_live(self):
        """How many registers are read later, before they are written, where most are: general ones and branch ones."""
        live = [set() for _ in range(len(self.words) + 1)]
        before = [[] for _ in live]
        for place in range(len(self.words)):
            for after in self.successors(place):
                before[after].append(place)
        waiting, waits = list(range(len(self.words))), [True] * len(live)
        while waiting:
            place = waiting.pop()
            waits[place] = False
            new = set().union(*(live[it] for it in self.successors(place)))
            new -= {it.to for it in self.words[place]}
            new |= {it for op in self.words[place] for it in op.reads if isinstance(it, tuple)}
            if new != live[place]:
                live[place] = new
                for it in before[place]:
                    if not waits[it]:
                        waits[it] = True
                        waiting.append(it)
        files = [[it for it in row if it[0] == kind and (kind, it[2]) != ("r", 0)] for row in live for kind in ("r", "b")]
        return max(map(len, files[0::2])), max(map(len, files[1::2]))

    def registers(self):
        named = {it for word in self.words for op in word for it in (*op.reads, op.to)}
        return len({it for it in named if isinstance(it, tuple) and (it[0], it[2]) != ("r", 0)})

    def run(self, given, see):
        """Runs the words; `see` is told the place of each word that is issued and the place behind it (None where the run ends)."""
        held, memory, given = {}, dict(self.memory), list(given)
        place = 0
        while place is not None:
            after, writes, stores = place + 1, [], []
            taken = False
            for op in self.words[place]:
                reads = [held.get(it, 0) if not isinstance(it, int) else it for it in op.reads]
                if op.name in OPERATIONS:
                    writes.append((op.to, int(OPERATIONS[op.name](*reads)) & 0xFFFFFFFF))
                elif op.name in ("mov", "mfl", "mtl"):
                    writes.append((op.to, reads[0]))
                elif op.name == "slct":
                    writes.append((op.to, reads[1] if reads[0] else reads[2]))
                elif op.name.startswith("ldw"):
                    writes.append((op.to, memory.get((reads[0] + op.offset) & 0xFFFFFFFF, 0)))
                elif op.name == "stw":
                    stores.append(((reads[0] + op.offset) & 0xFFFFFFFF, reads[1]))
                elif op.name == "in":
                    writes.append((op.to, given.pop(0) & 0xFFFFFFFF))
                elif op.name == "more":
                    writes.append((op.to, int(bool(given))))
                elif taken:
                    pass
                elif op.name in ("trap", "halt"):
                    taken, after = True, None
                elif op.name in ("goto", "call") or (op.name == "br" and reads[0]) or (op.name == "brf" and not reads[0]):
                    taken, after = True, op.target
                    if op.name == "call":
                        writes.append(("link", place + 1))
                elif op.name == "return":
                    taken, after = True, reads[0]
            for register, number in writes:
                if register == "link" or (register[0], register[2]) != ("r", 0):
                    held[register] = number
            memory.update(stores)
            see(place, after)
            place = after


def compiled(source_file, folder, options=(), both=(), machine=()):
    """The words of a source by the profile of its own run, the report of their plan, and the numbers of that run's input: the first of its
    inputs under examples/rows, if it has one. `both` are options of `profile` and `compile`. None where there is no end or no program."""
    rows = f"{TOP}/examples/rows/{os.path.basename(source_file)[:-2]}.1.in"
    given = ["--input", rows] if os.path.exists(rows) else []
    profile, words, report = f"{folder}/profile", f"{folder}/words", f"{folder}/report"
    with open(profile, "wb") as it:
        if subprocess.run([VEXC, "profile", source_file, *given, *both], stdout=it).returncode not in (0, 1):
            return None
    asked = ["--profile", profile, "--growth", "4000", "--report", report, *both, *options, *machine]
    if subprocess.run([VEXC, "compile", source_file, words, *asked]).returncode:
        return None
    with open(words, encoding="latin-1") as it:
        program = Words(it.read())
    with open(report, encoding="latin-1") as it:
        plan = it.read()
    numbers = []
    if given:
        with open(rows, encoding="latin-1") as it:
            numbers = [int(number) for number in it.read().split()]
    return program, plan, numbers


def all_sources():
    folders = (f"{TOP}/bench/programs", f"{TOP}/examples")
    return [f"{at}/{it}" for at in folders for it in sorted(os.listdir(at)) if it.endswith(".c")]
