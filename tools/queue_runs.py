"""Runs of one queue pair in traces: what `rows_of_requester` and `rows_of_responder` share.

A run is over one region. It has the lines that registered the region and created the queue pair, and its steps: those
lines of a trace that concern the queue pair on one of its two sides, with their marks. It ends before the first line
that would need more than the queue pair and its region.
"""
import argparse
import pathlib
import re
import sys
from dataclasses import dataclass, field

RESPONSES = range(13, 19)
REGION_SIZE = re.compile(r"(\d+)/(\d+):(\d+)\+(\d+)$")
COLUMNS = 100
LAST_BYTES = re.compile(r"(?<![0-9a-z])((?:[0-9a-f]{2})*?)([0-9a-f]{2})(\2{15,})(?![0-9a-z*])")


@dataclass
class Entry:
    """The words of an entry, its answer where it is a verb, and the lines of its marks."""

    words: list
    answer: str
    marks: list = field(default_factory=list)

    @property
    def verb(self):
        return self.words[1] if self.words[0].startswith("c") else ""


@dataclass
class Region:
    """A region that was registered: its slot, its key, its place, and its rights."""

    slot: str
    key: str
    adapter: int
    buffer: int
    offset: int
    length: int
    base: int
    rights: str


@dataclass
class Run:
    """The lines of a run so far, and what they are about."""

    queue: str
    region: Region
    lines: list = field(default_factory=list)
    steps: int = 0
    kinds: set = field(default_factory=set)
    end: str = "the end"
    srq: str = "-"

    def add(self, words, answer, marks):
        self.lines.append(f"@{self.steps} p0 {' '.join(words)}" + (f" -> {answer}" if answer else ""))
        self.lines += [" " + " ".join(m) for m in marks]
        self.steps += 1


class Stop(Exception):
    """The run ends here."""


def entries_of(path):
    entries = []
    for line in path.read_text().splitlines():
        if line.startswith("@"):
            call, _, answer = line.partition(" -> ")
            entries.append(Entry(call.split()[2:], answer))
        elif line.startswith(" "):
            entries[-1].marks.append(line.split())
    return entries


def region_of(entry):
    """The region that an entry registered, or None."""
    if entry.words[1:2] != ["reg"] or not entry.answer.startswith("key"):
        return None
    granted = next(m for m in entry.marks if m[0] == "granted")
    at = REGION_SIZE.match(granted[-1])
    if at is None:
        return None
    adapter, buffer, offset, length = (int(n) for n in at.groups())
    return Region(entry.words[2], granted[2], adapter, buffer, offset, length, int(granted[5], 16), granted[7])


def slot_of(queue):
    """The slot that a queue pair's name has."""
    adapter, number = queue.split("/")
    return f"{adapter}/{int(number) // 256 - 1}/{int(number) % 256}"


def domain_of(queue):
    return slot_of(queue).rpartition("/")[0]


def keep_envelopes(entry, mailbox):
    """Notes the bytes of the envelopes that an entry sends, by mailbox and index."""
    for mark in entry.marks:
        if mark[0] == "sent" and mark[3] != "-":
            mailbox.setdefault(mark[2], {})[int(mark[3])] = mark[5]


def packet_at(queue, entry, mailbox):
    """The bytes that arrive at a queue pair in an entry, or None."""
    if entry.words[0] == "deliver" and entry.words[1] == queue:
        return mailbox[queue][int(entry.words[2])]
    if entry.verb == "inject" and entry.words[2] == queue:
        return entry.words[3]
    return None


def opcode_of(raw):
    return None if raw == "-" else int(raw[:2], 16)


def is_dropped_before(entry):
    """Whether the packet of an entry is dropped for its bytes, its partition or its destination."""
    return any(m[0] == "dropped" and m[2].startswith(("wire", "partition", "queue")) for m in entry.marks)


def kinds_of(line):
    words = line.split()
    if words[0] == "done":
        return f"{words[5]}:{words[6]}"
    if words[0] == "local":
        return "local:" + words[7]
    if words[0] == "remote":
        return "remote:" + words[5] + ":" + (words[9] if words[8] == "denied" else words[8])
    if words[0] == "dropped":
        return "dropped:" + words[2]
    return words[0]


def text_of(run):
    """A run as text: the lines that registered its region and created its queue pair, and its steps."""
    region = run.region
    number = run.queue.split("/")[1]
    lines = [
        f"@0 p0 c0 reg {region.slot} {region.buffer} {region.offset} {region.length} {region.rights} -> key {region.key}",
        f"@0 p0 c0 qp {slot_of(run.queue)} 0 0 4 {4 if run.srq == '-' else 0} {run.srq} -> qp {number} 1",
    ]
    return "\n".join(lines + run.lines) + "\n"


def short_word(match):
    """A byte with its count. A few more than a multiple of 256 are those of a header, and stand as they are."""
    before, byte, again = match.groups()
    count = 1 + len(again) // 2
    few = count % 256 if count > 256 and count % 256 < 16 else 0
    return f"{before}{byte * few}{byte}*{count - few}"


def short_bytes(text):
    """A text in which a byte that stands 16 times or more at the end of a word is written once, with its count."""
    return LAST_BYTES.sub(short_word, text)


def setup_of(crate, name):
    """The lines with which most runs of a crate of tests begin, which are a constant there."""
    tests = pathlib.Path(__file__).resolve().parent.parent / "crates" / crate / "src" / "tests.rt"
    return re.search(rf'const {name}: &str = "([^"]*)";', tests.read_text())[1].splitlines()


def verb_of(line):
    return "".join(line.split(" ")[3:4])


def short_run(setup, run):
    """What a run says that differs from a setup: each line of the setup that it lacks stands there, and each other one
    gives way to the run's line of the same verb. A run that has no such lines in their order is told whole."""
    lines = run.split("\n")
    verbs = [verb_of(line) for line in setup]
    first, rest = lines[:len(setup)], lines[len(setup):]
    if [verb_of(line) for line in first] != verbs or verb_of(rest[0]) in verbs:
        return "whole\n" + run
    return "\n".join([own for own, line in zip(first, setup) if own != line] + rest)


def constant_of(name, text):
    """A constant, laid out as `rt fmt` does."""
    head = f"pub const {name}: &str ="
    is_long = len(head) + len(text.partition("\n")[0]) + 2 > COLUMNS
    return f'{head}{chr(10) + 4 * " " if is_long else " "}"{text}";\n'


def file_of(names, texts, tool):
    """The Rattle file of these constants, each with the text of some runs."""
    constants = "\n".join(constant_of(name, text) for name, text in zip(names, texts))
    return f"//! Runs that another program reckoned from the rules; `tools/{tool}` wrote them.\n\n{constants}"


def print_runs(traces, queues_of, run_of):
    """Names each queue pair of traces with the steps and the characters of its run, its end, and its marks."""
    for name in traces:
        path = pathlib.Path(name)
        for queue in queues_of(path):
            run = run_of(path, queue)
            if run is not None:
                run.kinds = {kinds_of(line) for line in run.lines if line.startswith(" ")}
                count = sum(len(line) for line in run.lines)
                print(path.stem, queue, run.steps, count, run.end, " ".join(sorted(run.kinds)), sep="\t")


def main(description, tool, setup, queues_of, run_of):
    """`setup` names the crate and the constant of the setup."""
    parser = argparse.ArgumentParser(description=description.split("\n")[0])
    parser.add_argument("--name", default="ROWS")
    parser.add_argument("--list", action="store_true")
    parser.add_argument("--longest", type=int, default=12000, help="the most characters of a constant")
    parser.add_argument("traces", nargs="+")
    given = parser.parse_args()
    if given.list:
        print_runs(given.traces, queues_of, run_of)
        return
    texts = [""]
    for name in given.traces:
        path, _, queue = name.partition("=")
        run = run_of(pathlib.Path(path), queue)
        if run is None:
            sys.exit(f"{name}: no region")
        text = short_bytes(short_run(setup_of(*setup), text_of(run)))
        if texts[-1] and len(texts[-1]) + len(text) > given.longest:
            texts.append("")
        texts[-1] += ("\n" if texts[-1] else "") + text
    print(file_of([f"{given.name}_{n}" for n in range(1, len(texts) + 1)], texts, tool), end="")
