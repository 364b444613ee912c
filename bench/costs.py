"""Run by cost.sh: measures the program of crates/b2_cost with valgrind, and prints the figures: costs.py PROGRAM [MOST]

What one update with nothing to do takes is what a run of two updates takes beyond a run of one, since the first one builds all. MOST
leaves out projects of more steps."""
import os
import re
import subprocess
import sys
import tempfile

# Steps, inputs of each, sources, and perhaps a chain.
SIZES = [(2000, 3, 6000), (10000, 3, 30000), (50000, 3, 150000), (2000, 30, 6000), (10000, 30, 30000), (50000, 30, 150000),
         (1, 20000, 20000), (20000, 0, 0, "chain")]
# Two projects that differ in how many sources there are, and in nothing else.
FEW, MANY = (50000, 3, 30000), (50000, 3, 150000)
READS_LOG = "b2_log::log::read_log"
# What a system does where there is one.
HOST = "b2_memory::memory::MemoryHostFiles::"


def words_of(size, updates):
    """The words that ask for a project and so many updates."""
    steps, inputs, sources, *chain = size
    return [str(steps), str(inputs), str(sources), str(updates)] + chain


def label(size):
    """What a project is."""
    steps, inputs, sources, *chain = size
    named = "1 step" if steps == 1 else f"{steps:,} steps"
    return f"a chain of {named}" if chain else f"{named} of {inputs:,} inputs from {sources:,} sources"


def under(tool, options, command, file):
    """Runs a command under a tool of valgrind, which writes a file. Gives what the command printed."""
    words = ["valgrind", f"--tool={tool}", f"--{tool}-out-file={file}"] + options + command
    return subprocess.run(words, check=True, stdout=subprocess.PIPE, stderr=subprocess.DEVNULL).stdout.decode()


def instructions(program, size, updates):
    """The instructions of a run: all, those that read the log, those of the host; and how many bytes the log has."""
    with tempfile.NamedTemporaryFile() as file:
        printed = under("callgrind", [], [program] + words_of(size, updates), file.name)
        told = subprocess.run(["callgrind_annotate", "--inclusive=yes", "--threshold=100", file.name], check=True,
                              stdout=subprocess.PIPE).stdout.decode()
    counts = [(int(count.replace(",", "")), name) for count, name in re.findall(r"^ *([\d,]+) \(.*?\) +(\S.*)$", told, re.M)]
    total = sum(count for count, name in counts if name == "PROGRAM TOTALS")
    reading = sum(count for count, name in counts if READS_LOG in name)
    host = sum(count for count, name in counts if HOST in name)
    return total, reading, host, int(printed.split()[-1])


def tell_instructions(program, size):
    """Prints what an update with nothing to do takes."""
    one, two = instructions(program, size, 1), instructions(program, size, 2)
    total, reading, host, _ = (after - before for before, after in zip(one, two))
    if not reading or not host:
        sys.exit(f"the program has no function {READS_LOG}, or none of {HOST}")
    beside, log = total - reading - host, two[3]
    print(f"{label(size)}: {beside / size[0]:,.0f} instructions a step, {host / size[0]:,.0f} more in the host, and "
          f"{reading / log:.1f} for each of {log:,} bytes of the log", flush=True)


def turns(values, least):
    """The highest and the lowest values in turn, each at least so far from the one before, from the first highest on."""
    found, rising = [values[0]], True
    for value in values:
        beyond = value - found[-1] if rising else found[-1] - value
        if beyond > 0:
            found[-1] = value
        elif -beyond >= least:
            found.append(value)
            rising = not rising
    return found


def rise(program, size):
    """How many bytes of memory an update with nothing to do takes until its end."""
    with tempfile.NamedTemporaryFile() as file:
        under("massif", ["--max-snapshots=1000", "--time-unit=i"], [program] + words_of(size, 3), file.name)
        with open(file.name) as text:
            told = text.read()
    taken = [int(heap) + int(extra) for heap, extra in re.findall(r"^mem_heap_B=(\d+)\nmem_heap_extra_B=(\d+)", told, re.M)]
    # The memory is highest at the end of each of the three updates, and lowest between them and at the end.
    found = turns(taken, max(taken) / 20)
    if len(found) != 6:
        sys.exit(f"the three updates are not seen in the memory: {found}")
    return found[4] - found[3]


def tell_memory(program):
    """Prints what an update takes for each file."""
    few, many = rise(program, FEW), rise(program, MANY)
    print(f"{label(MANY)}: {many / 2**20:.1f} MiB of memory beside the plan, {(many - few) / (MANY[2] - FEW[2]):.0f} bytes for each source "
          f"beyond {FEW[2]:,}", flush=True)


program, most = os.path.abspath(sys.argv[1]), int(sys.argv[2]) if sys.argv[2:] else 65536
for size in SIZES:
    if size[0] <= most:
        tell_instructions(program, size)
if MANY[0] <= most:
    tell_memory(program)
