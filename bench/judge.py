"""Read by kills.py and edits.py: which steps an update has to start, found apart from the program, by docs/MANUAL.md and docs/LOG.md:
from the log and the files before the update, and the bytes after it."""
import os
import re
from dataclasses import dataclass, field

SCANNED = (".c", ".cc", ".cpp", ".cxx", ".h", ".hh", ".hpp", ".hxx")
INCLUDE = re.compile(rb'^[ \t]*#[ \t]*include[ \t]*("[^"\n]*"|<[^>\n]*>)', re.MULTILINE)
ESCAPES = {"\\\\": "\\", "\\t": "\t", "\\n": "\n"}


@dataclass
class Record:
    """A record of the log: the command, and of each file its path, its time stamp and, where there is one, its digest."""
    text: str
    outs: list
    ins: list


@dataclass
class Step:
    """A step of the plan: its output, what it is given, where its includes are looked for, its command."""
    out: str
    inputs: list
    dirs: list
    text: str


def plain(text):
    """A field of the log without its escapes."""
    return re.sub(r"\\[\\tn]", lambda found: ESCAPES[found.group()], text)


def rows(fields, width):
    """Takes a number and as many rows from a list of fields."""
    count = int(fields.pop(0))
    if len(fields) < count * width:
        raise ValueError
    return [(plain(fields.pop(0)), *(fields.pop(0) for _ in range(width - 1))) for _ in range(count)]


def take_line(line, told):
    """Adds what a line of the log says of its outputs; a line that is not whole or not of the form raises ValueError."""
    fields = line.split("\t")
    kind = fields.pop(0)
    if not fields or fields.pop() != ".":
        raise ValueError
    try:
        if kind == "-1":
            told[tuple(row[0] for row in rows(fields, 1))] = None
        elif kind in ("+1", "+2"):
            width = 2 if kind == "+1" else 3
            record = Record(plain(fields.pop(0)), rows(fields, width), rows(fields, width))
            told[tuple(row[0] for row in record.outs)] = record
        elif kind == "s1":
            fields = fields[2:]
            rows(fields, 2)
        else:
            raise ValueError
    except IndexError:
        raise ValueError from None
    if fields:
        raise ValueError


def read_log(path):
    """What the log tells of each list of outputs, up to its first line that is not whole or not good."""
    told = {}
    if not os.path.exists(path):
        return told
    with open(path, "rb") as file:
        lines = file.read().split(b"\n")
    for line in lines[:-1]:
        try:
            take_line(line.decode(), told)
        except ValueError:
            break
    return told


@dataclass
class Judge:
    """Goes through the needed steps of an update, each after the steps that make what it reads."""
    steps: dict
    log: dict
    before: dict
    after: dict
    failed: set
    by_digest: bool = False
    everything: bool = False
    started: list = field(default_factory=list)
    skipped: set = field(default_factory=set)
    missing: set = field(default_factory=set)
    settled: set = field(default_factory=set)
    members: dict = field(default_factory=dict)

    def source(self, path):
        return path in self.before and not path.startswith("bin/")

    def wanted(self, paths):
        """Judges what these files need."""
        for path in paths:
            self.reach(path)
        return self

    def reach(self, path):
        """Judges the step that makes a file, if any. Whether the file has bytes that count, then."""
        step = self.steps.get(path)
        if step is None:
            if not self.source(path):
                self.missing.add(path)
            return self.source(path)
        if step.out not in self.members:
            self.members[step.out] = set()
            self.judge(step)
        return step.out in self.settled

    def judge(self, step):
        """Says of a step whether it is skipped, fresh, or has to start."""
        members, whole = self.closure(step)
        self.members[step.out] = members
        if not whole:
            self.skipped.add(step.out)
            return
        if self.stale(step, members):
            self.started.append(step.out)
        if step.out not in self.failed:
            self.settled.add(step.out)

    def closure(self, step):
        """All that a step reads, by includes too; and whether each of them is there and up to date."""
        found, left, whole = set(), list(step.inputs), True
        while left:
            path = left.pop()
            if path in found:
                continue
            found.add(path)
            if not self.reach(path):
                whole = False
            elif path.endswith(SCANNED):
                left += self.included(path, step.dirs)
        return found, whole

    def included(self, path, dirs):
        """The files that a file includes, each at the first place at which a source stands or that a step makes."""
        for name in INCLUDE.findall(self.after[path].data):
            places = [os.path.dirname(path)] if name[:1] == b'"' else []
            for place in places + dirs:
                candidate = os.path.normpath(os.path.join(place, name[1:-1].decode()))
                if candidate in self.steps or self.source(candidate):
                    yield candidate
                    break

    def stale(self, step, members):
        """The five points of docs/MANUAL.md, of which the first also asks for what ALWAYS and NOTFILE mark: no step here is."""
        if self.everything or step.out not in self.before:
            return True
        made = any(path in self.started for path in members)
        if not self.by_digest:
            out = self.before[step.out]
            if made or any(self.before[path].stamp > out.stamp for path in members):
                return True
        record = self.log.get((step.out,))
        if record is None or record.text != step.text:
            return True
        return not (not made and self.same_stamps(record, step, members)
                    or self.by_digest and self.same_digests(record, step, members))

    def same_stamps(self, record, step, members):
        outs = [(step.out, str(self.before[step.out].stamp))]
        ins = [(path, str(self.before[path].stamp)) for path in sorted(members, key=os.fsencode)]
        return [row[:2] for row in record.outs] == outs and [row[:2] for row in record.ins] == ins

    def same_digests(self, record, step, members):
        outs = [(step.out, self.before[step.out].digest)]
        ins = [(path, self.after[path].digest) for path in sorted(members, key=os.fsencode)]
        return [(row[0], *row[2:]) for row in record.outs] == outs and [(row[0], *row[2:]) for row in record.ins] == ins
