#!/usr/bin/env python3
"""Edits a project at random, and checks each update after that: edits.py [COUNT [SEED [--by=digest]]]

The project has sources and headers that are scanned, headers and a source that steps write, and includes in quotes and angle brackets
that are found in several places, in none, or in one another. There is no compiler: a script of awk puts in what a file includes. Each
round makes some edits: files are written, touched, deleted, put back as they once were, a header comes to stand in an earlier place,
outputs are edited or deleted, the log is removed, the project file or the words change. Then an update must end as a build of the same
files in a new folder does, leave the same bytes, and start those steps that the log and the files call for, and no other: what judge.py
finds. A second update must start nothing but what has failed. Each edit has a time stamp above all earlier ones.

COUNT is the number of rounds, 500 where it is not given; SEED, 1 where it is not given, decides all that is done. With --by=digest all
updates have that option. It needs sh, awk, cat, head and wc, and runs the program ./b2 that setup.sh leaves, or the one that B2 names.
Its status is 1 where something was wrong; the folder as it stood before the update is then kept."""
import os
import random
import shutil
import sys
import tempfile
from collections import Counter
from dataclasses import dataclass, field

from judge import Judge, Step, read_log
from runs import LOG, differing, files, fresh, plan, program, run, tick, write

NAMES = ("lines", "heads", "count", "expand")
TONES = {"low": "bin/", "high": "bin/tone-high/"}
HEADERS = [f"h{i}.h" for i in range(5)]
MADE_HEADERS = ["g0.h", "g1.h", "g2.h"]
NAMES_TO_INCLUDE = HEADERS + MADE_HEADERS + ["sub/h1.h", "../inc/h2.h", "table.inc", "nowhere.h"]
PLACES = ["src", "inc", "alt", "alt/sub"]

HEAD = """feature.feature tone : low high : propagated ;
feature.feature "include" : : free path ;
feature.feature flag : : free ;
rule expand ( targets * : sources * : properties * )
{
    DIRS on $(targets) = [ feature.get-values <include> : $(properties) ] ;
    FLAG on $(targets) = [ feature.get-values <flag> : $(properties) ] ;
}
rule lines ( targets * : sources * : properties * )
{
    FLAG on $(targets) = [ feature.get-values <flag> : $(properties) ] ;
}
actions expand { awk -v dirs="$(DIRS:J=,)" -v flag="$(FLAG)" -f expand.awk $(>) > $(<) }
actions lines { echo "// $(FLAG)" > $(<) && cat $(>) >> $(<) }
actions heads { head -q -n 3 $(>) > $(<) }
actions count { cat $(>) | wc -l > $(<) }
"""

EXPAND = r"""
function stands(path,    line, found) {
    if (path in seen) return 1
    found = (getline line < path) >= 0
    if (found) close(path)
    return found
}
function place(name, quoted, from,    all, count, i) {
    if (quoted && stands(from name)) return from name
    count = split(dirs, all, ",")
    for (i = 1; i <= count; i++) if (stands(all[i] "/" name)) return all[i] "/" name
    return ""
}
function expand(path,    line, name, quoted, found, from) {
    seen[path]
    from = path
    sub(/[^\/]*$/, "", from)
    while ((getline line < path) > 0) {
        if (path ~ /\.[ch]$/ && match(line, /^[ \t]*#[ \t]*include[ \t]*("[^"]*"|<[^>]*>)/)) {
            name = substr(line, RSTART, RLENGTH)
            quoted = name ~ /"$/
            sub(/^[^"<]*./, "", name)
            sub(/.$/, "", name)
            found = place(name, quoted, from)
            print "include " name " at " found
            if (found != "" && !(found in seen)) expand(found)
        } else if (line ~ /^#error/) {
            failed = 1
        } else {
            print line
        }
    }
    close(path)
}
BEGIN { print flag; for (k = 1; k < ARGC; k++) expand(ARGV[k]); exit failed }
"""


@dataclass
class Target:
    """What a call of make says."""
    name: str
    actions: str
    sources: list
    dirs: list = field(default_factory=list)
    flag: str = "plain"


class Project:
    """A project in a folder: its targets, those that are left out at present, the words of the request, and older texts of files."""

    def __init__(self, choice, folder, options):
        self.choice, self.folder, self.options = choice, folder, options
        self.targets, self.absent, self.older = {}, set(), {}
        self.words, self.tones, self.wanted, self.note = ["-j4"], ["low"], [], 0
        self.declare()
        self.put("expand.awk", EXPAND)
        for path in self.needed_sources() + ["inc/h1.h", "alt/h2.h", "src/h3.h", "inc/h4.h", "inc/table.inc"]:
            self.put(path, self.text(path))
        self.put_jamroot()

    def declare(self):
        """The targets of the project."""
        def add(name, actions, *sources):
            dirs = self.choice.sample(["inc", "alt", "bin"], 3) if actions == "expand" else []
            self.targets[name] = Target(name, actions, list(sources), dirs)

        add("g0.h", "lines", "data/d0.txt", "data/d1.txt")
        add("g1.h", "heads", "data/d2.txt")
        add("g2.h", "lines", "inc/h0.h")
        add("v.c", "lines", "data/d3.txt", "data/d4.txt")
        for i in range(6):
            add(f"u{i}.o", "expand", f"src/u{i}.c")
        add("v.o", "expand", "v.c")
        add("l0", "lines", "u0.o", "u1.o")
        add("l1", "heads", "u2.o", "u3.o")
        add("l2", "lines", "u4.o", "u5.o", "v.o")
        add("all.txt", "heads", "l0", "l1", "l2")
        add("size.txt", "count", "l0", "l1", "data/d5.txt")

    def text(self, path):
        """A random text. Headers of the project seldom lead into a step that needs itself."""
        lines = [f"word {self.choice.randint(0, 9)}" for _ in range(self.choice.randint(1, 4))]
        for _ in range(self.choice.choice([0, 0, 1, 1, 2, 3])):
            name = self.choice.choice(NAMES_TO_INCLUDE)
            if path == "inc/h0.h" and self.choice.random() < 0.8:
                name = "h4.h"
            quoted = self.choice.choice(['"%s"', "<%s>"]) % name
            lines.append(self.choice.choice(["#include %s", "  # include\t%s // why", "#include%s"]) % quoted)
        if path.startswith("src/u") and self.choice.random() < 0.08:
            lines.append("#error")
        self.choice.shuffle(lines)
        return "\n".join(lines) + "\n"

    def put(self, path, text):
        self.older.setdefault(path, []).append(text)
        write(self.folder, path, text)

    def put_jamroot(self):
        """Writes the project file, without what is left out."""
        lines = [f"# note {self.note}\n"]
        for target in self.targets.values():
            if target.name in self.absent:
                continue
            where = [f"<tone>{tone}:<include>{path if path != 'bin' else TONES[tone][:-1]}" for path in target.dirs for tone in TONES]
            flag = [f"<flag>{target.flag}"]
            lines.append(f"make {target.name} : {' '.join(self.sources(target))} : @{target.actions} : {' '.join(where + flag)} ;\n")
        write(self.folder, "Jamroot", HEAD + "".join(lines))

    def sources(self, target):
        """The sources of a target that are not left out."""
        return [name for name in target.sources if name not in self.absent] or ["data/d0.txt"]

    def needed_sources(self):
        """The files that steps are given."""
        return sorted({name for target in self.targets.values() for name in self.sources(target) if name not in self.targets})

    def present(self):
        """The sources that stand, but for the project file and the script."""
        return sorted(path for path in files(self.folder) if path not in ("Jamroot", "expand.awk") and not path.startswith("bin/"))

    def request(self):
        """The words of the update. Headers that steps make are always asked for, so that none is left from an earlier update."""
        tones = [] if self.tones == ["low"] else ["tone=" + ",".join(self.tones)]
        return self.options + self.words + tones + self.names()

    def names(self):
        """The targets that are asked for by name, if any."""
        wanted = [name for name in self.wanted if name not in self.absent]
        return wanted + [name for name in MADE_HEADERS if name not in self.absent] if wanted else []

    def steps(self, words):
        """The steps of the plan, by their outputs; and the wanted files."""
        texts, found = plan(self.folder, words), {}
        for tone in self.tones:
            room = TONES[tone]
            for target in self.targets.values():
                if room + target.name in texts:
                    inputs = [room + name if name in self.targets else name for name in self.sources(target)]
                    dirs = [room[:-1] if path == "bin" else path for path in target.dirs]
                    found[room + target.name] = Step(room + target.name, inputs, dirs, texts[room + target.name])
        names = self.names() or [name for name in self.targets if name not in self.absent]
        return found, [TONES[tone] + name for tone in self.tones for name in names]


def write_source(project):
    path = project.choice.choice(project.present())
    project.put(path, project.text(path))


def add_line(project):
    path = project.choice.choice(project.present())
    with open(os.path.join(project.folder, path)) as file:
        text = file.read()
    line = project.choice.choice(["more\n", f'#include "{project.choice.choice(NAMES_TO_INCLUDE)}"\n'])
    project.put(path, text + line if project.choice.random() < 0.7 else line + text)


def touch(project):
    path = project.choice.choice(project.present())
    tick(project.folder)
    os.utime(os.path.join(project.folder, path))


def delete_source(project):
    os.unlink(os.path.join(project.folder, project.choice.choice(project.present())))


def put_back(project):
    """Writes a file as it once was, also where it was deleted."""
    path = project.choice.choice(sorted(set(project.older) - {"expand.awk"}))
    project.put(path, project.choice.choice(project.older[path][-4:]))


def put_header(project):
    """Writes a header in one of the places where it is looked for."""
    path = f"{project.choice.choice(PLACES)}/{project.choice.choice(HEADERS + MADE_HEADERS)}"
    project.put(path, project.text(path))


def drop_header(project):
    headers = [path for path in project.present() if path.endswith(".h")]
    if headers:
        os.unlink(os.path.join(project.folder, project.choice.choice(headers)))


def edit_output(project):
    outputs = sorted(path for path in files(project.folder) if path.startswith("bin/"))
    if not outputs:
        return
    path = os.path.join(project.folder, project.choice.choice(outputs))
    tick(project.folder)
    act = project.choice.choice(["delete", "touch", "add", "write"])
    if act == "delete":
        os.unlink(path)
    elif act == "touch":
        os.utime(path)
    else:
        with open(path, "a" if act == "add" else "w") as file:
            file.write(project.choice.choice(["edited\n", '#include "h1.h"\n', "#error\n"]))


def remove_log(project):
    path = os.path.join(project.folder, LOG)
    if os.path.exists(path):
        os.unlink(path)


def remove_all(project):
    shutil.rmtree(os.path.join(project.folder, "bin"), ignore_errors=True)


def change_words(project):
    choice = project.choice
    project.words = choice.choice([[], ["-j4"], ["-j4"], ["-j2"], ["-aj3"]])
    project.tones = choice.choice([["low"], ["low"], ["high"], ["low", "high"]])
    project.wanted = choice.choice([[], [], choice.sample(sorted(project.targets), choice.randint(1, 4))])


def change_project(project):
    """Changes a flag, the sources or the places of a target, the order of all targets, or a comment."""
    choice = project.choice
    target = project.targets[choice.choice(sorted(project.targets))]
    act = choice.choice(["flag", "flag", "sources", "dirs", "order", "note"])
    if act == "flag":
        target.flag = choice.choice(["plain", "new", "old"])
    elif act == "sources" and target.actions != "expand":
        target.sources = choice.sample(target.sources, choice.randint(1, len(target.sources)))
        target.sources += choice.choice([[], [f"data/d{choice.randint(0, 5)}.txt"]])
        target.sources = list(dict.fromkeys(target.sources))
    elif act == "dirs" and target.actions == "expand":
        target.dirs = choice.sample(["inc", "alt", "bin"], choice.randint(1, 3))
    elif act == "order":
        targets = list(project.targets.items())
        choice.shuffle(targets)
        project.targets = dict(targets)
    project.note = choice.randint(0, 9)
    project.put_jamroot()


def change_targets(project):
    """Leaves a target out of the project, or takes it in again. A header that is no longer made is removed."""
    name = project.choice.choice(["u1.o", "u4.o", "v.o", "l1", "size.txt"] + MADE_HEADERS)
    project.absent ^= {name}
    for room in TONES.values():
        path = os.path.join(project.folder, room + name)
        if name in MADE_HEADERS and os.path.exists(path):
            os.unlink(path)
    project.put_jamroot()


EDITS = {write_source: 8, add_line: 6, touch: 5, delete_source: 2, put_back: 5, put_header: 3, drop_header: 2, edit_output: 6,
         remove_log: 0.5, remove_all: 0.3, change_words: 4, change_project: 4, change_targets: 1.5}


def mend(project):
    """In most rounds puts back what makes steps fail."""
    for path in project.needed_sources():
        whole = os.path.join(project.folder, path)
        if project.choice.random() < 0.3:
            continue
        if not os.path.exists(whole) or "#error" in open(whole).read():
            project.put(path, "mended\n")


def faults(project, words):
    """What is wrong with an update and with a second one, one text for each fault; and the status of the first."""
    folder, by_digest = project.folder, "--by=digest" in words
    steps, wanted = project.steps(words)
    log, before = read_log(os.path.join(folder, LOG)), files(folder)
    clean, clean_files = fresh(folder, words, NAMES)
    report, after = run(folder, words, NAMES), files(folder)
    again = run(folder, [word if word != "-aj3" else "-j3" for word in words], NAMES)
    wrong = compared(report, clean, again)
    if report.status not in (0, 1):
        return wrong, report.status
    wrong += [f"bytes of {path}" for path in differing(clean_files, after)]
    wrong += [f"{path} stands, though its step failed" for path in report.failed if path in after]
    judge = Judge(steps, log, before, after, report.failed, by_digest, "-aj3" in words).wanted(wanted)
    for what, found, due in [("started", sorted(report.started), sorted(judge.started)), ("skipped", report.skipped, judge.skipped),
                             ("missing", report.missing, judge.missing), ("started again", set(again.started), report.failed)]:
        if found != due:
            wrong.append(f"{what} without need: {sorted(set(found) - set(due))}; not {what}: {sorted(set(due) - set(found))}")
    return wrong, report.status


def compared(report, clean, again):
    """What an update, a build in a new folder, and a second update tell differently."""
    wrong = []
    for what, other in [("a build in a new folder", clean), ("the second update", again)]:
        if report.status != other.status:
            wrong.append(f"status {report.status} and {report.last}; {what}: {other.status} and {other.last}")
        elif report.status in (0, 1):
            if (report.failed, report.skipped, report.missing) != (other.failed, other.skipped, other.missing):
                wrong.append(f"failed, skipped and missing are not those of {what}")
        elif report.last != other.last:
            wrong.append(f"{report.last}; {what}: {other.last}")
    updated = len(report.started) - len(report.failed)
    counts = f"failed {len(report.failed)}, skipped {len(report.skipped)}, missing {len(report.missing)}"
    if report.status in (0, 1) and report.last != f"updated {updated}, {counts}":
        wrong.append(f"{report.last} after {updated} steps that did not fail")
    return wrong


def rounds(count, choice, folder, options):
    """Runs so many rounds, and gives how many were wrong, and how many ended with each status."""
    project, statuses, wrong_rounds = Project(choice, folder, options), Counter(), 0
    for number in range(1, count + 1):
        if number > 1:
            mend(project)
            acts = choice.choices(list(EDITS), list(EDITS.values()), k=choice.randint(1, 4))
            for act in acts:
                act(project)
        tick(folder)
        kept = tempfile.mkdtemp(prefix="edits-")
        shutil.copytree(folder, kept, dirs_exist_ok=True)
        words = project.request()
        wrong, status = faults(project, words)
        statuses[status] += 1
        if wrong:
            wrong_rounds += 1
            print(f"round {number}, b2 {' '.join(words)}: the folder before it is kept at {kept}", *wrong, sep="\n  ", flush=True)
            remove_all(project)
        else:
            shutil.rmtree(kept)
    return wrong_rounds, statuses


def main(words):
    count = int(words[0]) if words else 500
    seed = int(words[1]) if len(words) > 1 else 1
    program()
    with tempfile.TemporaryDirectory() as work:
        folder = os.path.join(work, "project")
        os.mkdir(folder)
        wrong, statuses = rounds(count, random.Random(seed), folder, words[2:])
    ends = ", ".join(f"{statuses[status]} with status {status}" for status in sorted(statuses))
    print(f"{count} rounds, seed {seed}{' '.join([''] + words[2:])}: updates ended {ends}; {wrong} rounds were wrong")
    return 1 if wrong else 0


if __name__ == "__main__":
    sys.exit(main(sys.argv[1:]))
