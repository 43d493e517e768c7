"""Where netpbm takes a file that we refuse, refuses one that we take, or reads another picture: grouped by why."""

import re
from typing import NamedTuple

from tools import Failed, pamfile, pixels_by_pamtopam

LONG = "a line of more than 254 bytes, which netpbm cuts in two"
CUT = "a line that stands only in what netpbm cuts off a long one"
ZERO = "a byte 0 in a line, which ends it for netpbm"

# Each reason to differ, and whether the document allows what the file has.
REASONS = {
    "a first line other than `P7`": "not allowed",
    "a number's line twice": "not allowed",
    "a number that is not digits alone": "not said",
    "more after ENDHDR on its line": "not said",
    ZERO: "not allowed",
    CUT: "not allowed",
    LONG: "allowed",
    "bytes after the pixels": "not allowed",
    "pixels missing": "not allowed",
    "no ENDHDR line, or not ended": "not allowed",
    "no TUPLTYPE line": "allowed",
    "TUPLTYPE twice": "allowed",
    "another tuple type": "allowed",
    "MAXVAL other than 255": "allowed",
    "a depth that is not the tuple type's own": "allowed",
    "a size above the bound": "allowed",
    "a second picture": "allowed",
}


class Group(NamedTuple):
    """Files that differ alike: how many, and of the first what is shown, our number, what pamfile does and what pamtopam."""

    shown: object
    number: int
    described: str
    taken: str
    count: int = 0


def asked(tool, file):
    """Whether a tool takes a file, and what it then says of it."""
    try:
        return "takes it", tool(file)
    except Failed:
        return "refuses", None


def reason(file, why):
    """Why netpbm may read a file otherwise than we do, who accept it or refuse it for `why`."""
    for line in file.split(b"\n"):
        if len(line) > 254 and why not in REASONS:
            return CUT if why else LONG
        if b"\0" in line and not line.startswith(b"#"):
            return ZERO
        if line.split()[:1] == [b"ENDHDR"]:
            break
    return why


def differences(files):
    """The groups by reason and whether both accept, of (what is shown, file, our number, why, picture)."""
    groups = {}
    for shown, file, number, why, picture in files:
        described, _ = asked(pamfile, file)
        taken, read = asked(pixels_by_pamtopam, file)
        ours = "refuses" if number else "takes it"
        another = ours == taken == "takes it" and read != picture
        if another or not ours == described == taken:
            key = reason(file, why), another
            first = Group(shown, number, described, "reads another picture" if another else taken)
            group = groups.get(key, first)
            groups[key] = group._replace(count=group.count + 1)
    return groups


def cell(shown):
    """A cell of a Markdown table: words as they are, bytes as lines of code with their long runs cut short."""
    if isinstance(shown, str):
        return shown
    lines = re.sub(r"(.)\1{19,}", lambda run: f"{run[1]}..({len(run[0])} of them)", shown.decode("latin-1")).split("\n")
    return ", ".join("`%s`" % line.encode("unicode_escape").decode().replace("|", "\\|") for line in lines)


def table(groups):
    """The groups as a Markdown table, in the order of the reasons."""
    yield "| what the file has | by the document | example | we | `pamfile` | `pamtopam` | texts |"
    yield "|---|---|---|---:|---|---|---:|"
    order = {why: place for place, why in enumerate(REASONS)}
    for why, another in sorted(groups, key=lambda key: (order.get(key[0], -1), key[1])):
        shown, *rest = groups[why, another]
        yield " | ".join((f"| {why}", REASONS.get(why, "?"), cell(shown), *map(str, rest))) + " |"
