"""The stack that calls need on the controller, as Markdown tables.

    python3 frames.py [--header HEADER] [--board STACK] PROGRAM REPORT [NAME..]

PROGRAM is the linked program, whose instructions are followed by arm-none-eabi-objdump's listing: from a function's entry
along every branch, with how far the stack pointer is below where it was; a call adds what the called function needs. So the
functions of libgcc and of the C library count as the library's own do. REPORT is the compiler's (-fstack-usage); every frame
in it has to be the one that the instructions make. The calls are those of HEADER, the C header, which says what goes over the
stack as arguments, or the functions that are named. STACK is what the board measured, of a call on pictures by its reduction,
too; nothing there may be above what is worked out here. Fails where something does not fit, or where a call needs more than
its bound.
"""

import argparse
import re
import subprocess
from typing import NamedTuple

# The bounds of document 02's third request: a lookup needs 1 KiB at most, any other call 16 KiB.
BOUND, LOOKUP_BOUND = 16384, 1024
LOOKUPS = ["nearest", "nearest_two", "ordered_bracket"]
# How often a function that calls itself can be on the stack at a time. A side is at most 4,096, which every caller is proved to
# see to, so it has at most four digits.
LEVELS = {"pam::writing::put_decimal": 4}
# The program's own way to the lookups over records, which has a list of 300 of them in its frame: no call, and not bounded.
NO_CALL = "record_stack"
CONDITIONS = "eq ne cs hs cc lo mi pl vs vc hi ls ge lt gt le".split()
WORDS = "b bl blx bx cbz cbnz tbb tbh push pop vpush vpop stmdb ldmia add addw sub subw str strd ldr ldrd cmp udf".split()
READ = {f"{word}{condition}": (word, True) for word in WORDS for condition in CONDITIONS} | {w: (w, False) for w in WORDS}


class Instruction(NamedTuple):
    word: str  # without condition and width; empty where it is none of WORDS
    conditional: bool
    operands: str
    after: int  # the address after it


class Listing:
    """The program's instructions, the bytes of its tables, and the functions that begin at an address."""

    def __init__(self, text):
        self.code, self.data, self.names, self.starts = {}, {}, {}, {}
        name = None
        for line in text.splitlines():
            if label := re.match(r"([0-9a-f]+) <(.+)>:$", line):
                name = label[2]
                self.starts[name] = int(label[1], 16)
            elif found := re.match(r" *([0-9a-f]+):\t([0-9a-f ]+?) *\t(\S+)(?:\t([^@;]*))?", line):
                self.take(int(found[1], 16), found[2], found[3], (found[4] or "").strip(), name)

    def take(self, at, encoding, word, operands, name):
        size = len(encoding.replace(" ", "")) // 2
        if word.startswith("."):
            for i, byte in enumerate(int(operands, 16).to_bytes(size, "little")):
                self.data[at + i] = byte
            return
        word, conditional = READ.get(re.sub(r"\.[nw]$", "", word), ("", False))
        self.code[at] = Instruction(word, conditional, operands, at + size)
        self.names[at] = name


def registers(text):
    """How many bytes the registers in braces take."""
    size = 0
    for part in re.search(r"\{(.*)\}", text)[1].split(", "):
        ends = part.split("-")
        count = int(ends[-1][1:]) - int(ends[0][1:]) + 1 if len(ends) == 2 else 1
        size += count * (8 if part[0] == "d" else 4)
    return size


def lowered(instruction):
    """How far an instruction takes the stack pointer down; less than 0 where it takes it up."""
    word, _, operands, _ = instruction
    if word in ("push", "vpush") or word == "stmdb" and operands.startswith("sp!"):
        return registers(operands)
    if word in ("pop", "vpop") or word == "ldmia" and operands.startswith("sp!"):
        return -registers(operands)
    if word in ("str", "strd") and (found := re.search(r"\[sp, #-(\d+)\]!", operands)):
        return int(found[1])
    if word in ("ldr", "ldrd") and (found := re.search(r"\[sp\], #(\d+)", operands)):
        return -int(found[1])
    if word in ("sub", "subw", "add", "addw") and (found := re.fullmatch(r"sp, (?:sp, )?#(\d+)", operands)):
        return int(found[1]) if word.startswith("sub") else -int(found[1])
    # Any other way to change it: as what is written, not as an address, or as an address that is written back.
    if re.match(r"sp, [^{]", operands) and word != "cmp" or re.search(r"\[sp[^]]*\](!|, )|sp!", operands):
        raise SystemExit(f"an instruction that is not followed: {word} {operands}")
    return 0


def ends(instruction):
    """Whether an instruction returns, or goes no further."""
    word, _, operands, _ = instruction
    returns = word in ("pop", "ldmia") and "pc" in operands or word == "ldr" and operands.startswith("pc")
    return returns or word == "udf" or word == "bx" and operands == "lr"


class Need(NamedTuple):
    frame: int  # of the function itself
    depth: int  # with all below it
    path: tuple  # the functions on the deepest way, each with how deep it stands at its call


class Stack:
    """What each function needs, worked out once."""

    def __init__(self, listing):
        self.listing, self.known, self.open = listing, {}, []

    def of(self, start):
        if start in self.known:
            return self.known[start]
        if start in self.open:
            raise SystemExit(f"{self.listing.names[start]} calls itself: its stack has no bound")
        self.open.append(start)
        self.known[start] = self.worked_out(start)
        self.open.pop()
        return self.known[start]

    def worked_out(self, start):
        """Follows every way through a function. A way that meets another goes on with the greater depth."""
        name, frame, deepest, again, path = self.listing.names[start], 0, 0, 0, ()
        met, left = {}, [(start, 0)]
        while left:
            at, depth = left.pop()
            if met.get(at, -1) >= depth:
                continue
            if depth > 1 << 20 or at not in self.listing.code:
                raise SystemExit(f"{name} leads nowhere, at {at:#x}")
            met[at] = depth
            instruction = self.listing.code[at]
            # Where it depends on a condition, the stack pointer is taken to be the lower one.
            change = lowered(instruction)
            below = depth + max(change, 0)
            if self.listing.names[at] == name:
                frame = max(frame, below)
            if below > deepest:
                deepest, path = below, ((name, below),)
            if instruction.word == "bl" and target(instruction) == start and name in LEVELS:
                again = max(again, depth)
            elif instruction.word == "bl":
                inner = self.of(target(instruction))
                if depth + inner.depth > deepest:
                    deepest, path = depth + inner.depth, ((name, depth), *inner.path)
            after = below if instruction.conditional else depth + change
            left += [(place, after) for place in self.following(at, instruction)]
        return Need(frame, deepest + again * (LEVELS.get(name, 1) - 1), path)

    def following(self, at, instruction):
        word, conditional, operands, after = instruction
        if word == "blx" or word == "bx" and operands != "lr":
            raise SystemExit(f"{self.listing.names[at]} calls by an address that is not known, at {at:#x}")
        if word in ("tbb", "tbh"):
            return self.table(at, 1 if word == "tbb" else 2)
        places = [target(instruction)] if word in ("b", "cbz", "cbnz") else []
        stops = word == "b" or ends(instruction)
        return places + ([] if stops and not conditional else [after])

    def table(self, at, size):
        """Where a table of branches, which stands behind its instruction, leads. Its last byte may be there to fill up."""
        places, place = [], at + 4
        while all(place + i in self.listing.data for i in range(size)):
            entry = int.from_bytes(bytes(self.listing.data[place + i] for i in range(size)), "little")
            places.append(at + 4 + 2 * entry)
            place += size
        return [place for place in places if place in self.listing.code]


def target(instruction):
    return int(re.search(r"\b([0-9a-f]+) <", instruction.operands)[1], 16)


def arguments(header, name):
    """The bytes of a call's arguments that go over the stack, by the rules of Arm's procedure call standard: four words in
    registers, a value of 64 bits at an even one, and on the stack at a multiple of 8; floats have registers of their own."""
    declared = re.search(rf"\b{name}\(([^)]*)\)", header)[1]
    used, stacked = 0, 0
    for argument in declared.split(","):
        if "*" not in argument and "float" in argument:
            continue
        size = 2 if "*" not in argument and re.search(r"badge_length|uint64_t", argument) else 1
        used += used % 2 if size == 2 else 0
        if used + size <= 4:
            used += size
            continue
        used = 4
        stacked += stacked % 2 if size == 2 else 0
        stacked += size
    return 4 * (stacked + stacked % 2)


def row(cells):
    print("| " + " | ".join(cells) + " |")


def way_of(path):
    """The functions below a call, on the deepest way."""
    return ", ".join(f"`{name}`" + (f" {LEVELS[name]} times" if name in LEVELS else "") for name, _ in path[1:])


def rows_of(measured, name):
    """What the board measured of a call, by its reduction; that of a call that has none is ""."""
    parts = [(line.partition(":"), most) for line, most in measured.items()]
    return {reduction: most for (call, _, reduction), most in parts if call == name}


def calls_table(stack, calls, measured):
    """The table of the calls, each with what goes over the stack as arguments, where that is known. Answers what is wrong."""
    wrong = []
    row(["call", "its frame", "with all below", "arguments", "in all", "written on the board", "deepest way"])
    row(["---"] + ["---:"] * 5 + ["---"])
    for name, passed in calls:
        need = stack.of(stack.listing.starts[name])
        whole = need.depth + (passed or 0)
        written = rows_of(measured, name)
        most = max(written.values(), default=None)
        cells = [need.frame, need.depth, passed, None if passed is None else whole, most]
        row([f"`{name}`"] + ["-" if cell is None else f"{cell:,}" for cell in cells] + [way_of(need.path)])
        for reduction in filter(None, written):
            row([f"in {reduction.replace('_', ' ')}"] + ["-"] * 4 + [f"{written[reduction]:,}", ""])
        bound = LOOKUP_BOUND if re.sub("^(badge|records)_", "", name) in LOOKUPS else BOUND
        if whole > bound and name != NO_CALL:
            wrong.append(f"{name} needs more than {bound:,} bytes")
        if (most or 0) > need.depth:
            wrong.append(f"{name} wrote more than is worked out")
    return wrong


def frames_table(stack, report):
    """The table of the largest frames below the calls. Answers which is not the compiler's own."""
    wrong = []
    print()
    row(["function", "frame", "with all below"])
    row(["---", "---:", "---:"])
    for name, size in sorted(report.items(), key=lambda entry: -entry[1]):
        need = stack.of(stack.listing.starts[name])
        if need.frame != size:
            wrong.append(f"{name} has a frame of {need.frame:,}, and in the compiler's report one of {size:,}")
        if size >= 64 and "::" in name:
            row([f"`{name}`", f"{size:,}", f"{need.depth:,}"])
    print(f"\n{len(report)} functions, {len(report) - len(wrong)} of them with the frame that the compiler reports")
    return wrong


def fields(path, separator):
    """The fields of a file's lines."""
    if path is None:
        return []
    with open(path, encoding="utf-8") as file:
        return [line.rstrip("\n").split(separator) for line in file]


def main():
    parser = argparse.ArgumentParser()
    parser.add_argument("--header")
    parser.add_argument("--board")
    parser.add_argument("program")
    parser.add_argument("report")
    parser.add_argument("names", nargs="*")
    given = parser.parse_args()
    listed = subprocess.run(["arm-none-eabi-objdump", "-d", given.program], capture_output=True, text=True, check=True)
    stack = Stack(Listing(listed.stdout))
    calls = [(name, None) for name in given.names]
    if given.header:
        with open(given.header, encoding="utf-8") as file:
            header = re.sub(r"/\*.*?\*/", "", file.read(), flags=re.S)
        calls += [(name, arguments(header, name)) for name in re.findall(r"\b(badge_\w+)\(", header)]
    # A line of the report is the file and the function with a colon between them, and the frame.
    report = {place.split(":", 1)[1]: int(size) for place, size, _ in fields(given.report, "\t")}
    measured = {name: int(most) for name, most, _ in fields(given.board, " ")}
    wrong = calls_table(stack, calls, measured) + frames_table(stack, report)
    if wrong:
        raise SystemExit("\n".join(wrong))


main()
