"""Read by kills.py, edits.py and memory.py: finds the program, which is ./b2 that setup.sh leaves or the one that B2 names, runs it, reads what it
prints, and tells what stands in a folder."""
import hashlib
import os
import shutil
import subprocess
import sys
import tempfile
import time
from dataclasses import dataclass, field

LOG = "bin/b2.log"
LONGEST = 120


def program():
    """The path of the program."""
    top = os.path.dirname(os.path.dirname(os.path.abspath(__file__)))
    path = os.path.abspath(os.environ.get("B2", os.path.join(top, "b2")))
    if not os.access(path, os.X_OK):
        sys.exit(f"{path} is not there: run ./setup.sh first")
    return path


@dataclass
class Report:
    """What a build printed: the first outputs of the steps that started and failed, the skipped steps, the missing files."""
    status: int
    text: str
    started: list = field(default_factory=list)
    failed: set = field(default_factory=set)
    skipped: set = field(default_factory=set)
    missing: set = field(default_factory=set)
    last: str = ""


def report_of(status, text, names):
    """Reads what a build printed, where the actions have these names."""
    report = Report(status, text)
    for line in text.splitlines():
        first, _, rest = line.partition(" ")
        if line.startswith("...failed "):
            report.failed.add(line[3:-3].split(" ")[-1])
        elif line.startswith("...skipped "):
            report.skipped.add(rest[:-3])
        elif line.startswith("...missing "):
            report.missing.add(rest[:-3])
        elif first in names:
            report.started.append(rest)
        report.last = line
    return report


def run(folder, words, names):
    """Runs the program in a folder, and gives its report. One that does not end is a wrong answer as well."""
    try:
        ended = subprocess.run([program()] + words, cwd=folder, stdin=subprocess.DEVNULL, stdout=subprocess.PIPE,
                               stderr=subprocess.DEVNULL, timeout=LONGEST)
    except subprocess.TimeoutExpired:
        return Report(-1, f"did not end in {LONGEST} seconds")
    return report_of(ended.returncode, ended.stdout.decode(errors="replace"), names)


def plan(folder, words):
    """The commands of the steps of a request, in order, by their first outputs. Each command is one line."""
    shown = subprocess.run([program(), "-n"] + words, cwd=folder, stdout=subprocess.PIPE, check=True).stdout.decode()
    lines = shown.splitlines()
    return {start.split(" ", 1)[1]: text for start, text in zip(lines[0::2], lines[1::2])}


@dataclass
class File:
    """A file as it stands: its time stamp, its bytes, their digest."""
    stamp: int
    data: bytes
    digest: str


def files(folder):
    """All files of a folder by their paths, without the log."""
    found = {}
    for parent, _, names in os.walk(folder):
        for name in names:
            path = os.path.join(parent, name)
            with open(path, "rb") as file:
                data = file.read()
            found[os.path.relpath(path, folder)] = File(os.stat(path).st_mtime_ns, data, hashlib.sha256(data).hexdigest())
    for path in [LOG, LOG + ".b2-unfinished"]:
        found.pop(path, None)
    return found


def tick(folder):
    """Waits until a file that is written from now on gets a time stamp above all earlier ones."""
    handle, probe = tempfile.mkstemp(dir=os.path.dirname(os.path.abspath(folder)))
    begin = os.fstat(handle).st_mtime_ns
    while os.fstat(handle).st_mtime_ns <= begin:
        time.sleep(0.0005)
        os.pwrite(handle, b"x", 0)
    os.close(handle)
    os.unlink(probe)


def write(folder, path, text):
    """Writes a file of a folder, with a time stamp above all earlier ones."""
    tick(folder)
    whole = os.path.join(folder, path)
    os.makedirs(os.path.dirname(whole), exist_ok=True)
    with open(whole, "w") as file:
        file.write(text)


def fresh(folder, words, names):
    """Builds the present sources of a folder in a new one, and gives the report and the files that it leaves."""
    with tempfile.TemporaryDirectory(dir=os.path.dirname(folder)) as other:
        shutil.copytree(folder, other, ignore=lambda parent, found: ["bin"] if parent == folder else [], dirs_exist_ok=True)
        return run(other, words, names), files(other)


def differing(fresh_files, present):
    """What was built in a new folder and has other bytes in the present one, or is not there."""
    return [path for path, file in sorted(fresh_files.items())
            if path.startswith("bin/") and (path not in present or present[path].data != file.data)]
