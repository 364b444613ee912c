"""Runs a program and prints the seconds and the memory that it took: measure.py LABEL PROGRAM WORD .. Where TEXT tells how many bytes
of project text the program reads, it also prints how many bytes of memory it took for each, beside the limit; and how many of them
beyond what it takes for an empty Jamroot."""
import ctypes
import os
import subprocess
import sys
import tempfile
import time

LIMIT = 200
ADOPT_ORPHANS = 36

# A process counts the memory of the one that it was started from. So the program is started from a small shell, which ends at once
# and leaves it to us. A shell takes the standard input from what it leaves behind; so that comes by another number.
SHELL = 'exec 3<&0; "$0" "$@" <&3 3<&- &'


def run(program, folder=None):
    """Gives what a program printed, its status, and the most memory that it took, in bytes."""
    printed = subprocess.run(["sh", "-c", SHELL] + program, stdout=subprocess.PIPE, cwd=folder).stdout
    _, ended, used = os.wait4(-1, 0)
    return printed, os.waitstatus_to_exitcode(ended), used.ru_maxrss * 1024


def empty_project(program):
    """The most memory that the program takes for an empty Jamroot."""
    with tempfile.TemporaryDirectory() as folder:
        open(os.path.join(folder, "Jamroot"), "w").close()
        return run(program, folder)[2]


ctypes.CDLL(None).prctl(ADOPT_ORPHANS, 1, 0, 0, 0)
label, program = sys.argv[1], sys.argv[2:]
begin = time.time()
printed, status, memory = run(program)
seconds = time.time() - begin
lines = printed.decode(errors="replace").splitlines()
last = lines[-1][:60] if lines else ""
print(f"{label}: {seconds:.2f} s, at most {memory / 2**20:.1f} MiB, status {status}, {last}")
text = int(os.environ.get("TEXT", "0"))
if text:
    each, beyond = memory / text, (memory - empty_project(program)) / text
    print(f"  {text} bytes of project text: {each:.0f} bytes of memory for each, limit {LIMIT}; {beyond:.0f} beyond an empty project")
