#!/usr/bin/env python3
"""Stops builds with `kill -9`, and checks what the next build makes of what they left: kills.py [COUNT [SEED [--by=digest]]]

Each round starts a build of 60 steps with -j4, in chains and fans, some of which write their outputs in several goes: from nothing, or
after edits. At a random moment the program and, in most rounds, its commands are killed. In some rounds the end of the log is cut off.
Then a second build must end with status 0, leave the bytes of a build in a new folder, and start those steps that the log and the files
call for, and no other: what judge.py finds. A third build must start nothing.

COUNT is the number of rounds, 200 where it is not given; SEED, 1 where it is not given, decides the project and what is done, but for
the moments. With --by=digest all builds have that option. It needs sh, cat, head and sleep, and runs the program ./b2 that setup.sh
leaves, or the one that B2 names. Its status is 1 where something was wrong; the folder is then kept."""
import os
import random
import shutil
import signal
import subprocess
import sys
import tempfile
import time

from judge import Judge, Step, read_log
from runs import LOG, differing, files, fresh, plan, program, run, tick, write

STEPS = 60
NAMES = ("copy", "heads", "slowly")
ACTIONS = """actions copy { cat $(>) > $(<) }
actions heads { for i in $(>) ; do head -c 40 $i; done > $(<) }
actions slowly { for i in $(>) ; do head -c 40 $i; sleep 0.003; done > $(<) }
"""


def make_project(choice, folder):
    """Writes a project of chains and fans, and gives what each step reads."""
    reads, lines = [], []
    for number in range(STEPS):
        earlier = range(number)
        if number % 20 == 0:
            above = []
        elif number % 20 < 8:
            above = [number - 1]
        elif number % 20 < 15:
            above = [number - number % 20 + 7]
        else:
            above = sorted(choice.sample(earlier, min(choice.randint(2, 6), number)))
        own = [] if above and choice.random() < 0.3 else [f"s{number}"]
        reads.append(own + [f"t{one}" for one in above])
        actions = "copy" if len(reads[-1]) == 1 else choice.choice(NAMES[1:])
        lines.append(f"make t{number} : {' '.join(reads[-1])} : @{actions} ;\n")
        for name in own:
            write(folder, name, f"source {number}\n")
    write(folder, "Jamroot", ACTIONS + "".join(lines))
    return reads


def steps_of(folder, reads):
    """The steps of the project by their outputs."""
    texts = plan(folder, [])
    found = {}
    for number, names in enumerate(reads):
        inputs = [f"bin/{name}" if name[0] == "t" else name for name in names]
        found[f"bin/t{number}"] = Step(f"bin/t{number}", inputs, [], texts[f"bin/t{number}"])
    return found


def edit(choice, folder):
    """Makes some edits, or removes all that was built. Some edits lie behind what a step reads of a file."""
    if choice.random() < 0.4:
        shutil.rmtree(os.path.join(folder, "bin"), ignore_errors=True)
        return
    sources = sorted(name for name in os.listdir(folder) if name[0] == "s")
    for name in choice.sample(sources, choice.randint(1, 8)):
        with open(os.path.join(folder, name)) as file:
            text = file.read()
        write(folder, name, choice.choice([text, text[:60] + "." * choice.randint(0, 60), f"{choice.random()}\n"]))
    outputs = sorted(path for path in files(folder) if path.startswith("bin/"))
    for path in choice.sample(outputs, min(len(outputs), choice.choice([0, 0, 1, 3]))):
        if choice.random() < 0.5:
            os.unlink(os.path.join(folder, path))
        else:
            write(folder, path, f"edited {choice.random()}\n")


def stopped_build(choice, folder, words, longest):
    """Starts a build, kills it at a random moment, and waits until all that it had started has ended. Whether it was still running."""
    running = subprocess.Popen([program()] + words, cwd=folder, stdin=subprocess.DEVNULL, stdout=subprocess.PIPE,
                               stderr=subprocess.STDOUT, start_new_session=True)
    time.sleep(choice.uniform(0, longest))
    alive = running.poll() is None
    if alive and choice.random() < 0.75:
        os.killpg(running.pid, signal.SIGKILL)
    elif alive:
        running.kill()
    # Each command holds the other end open.
    running.stdout.read()
    running.stdout.close()
    return running.wait() == -signal.SIGKILL


def cut_log(choice, folder):
    """Cuts off the end of the log in some rounds. Whether it did."""
    path = os.path.join(folder, LOG)
    if choice.random() < 0.6 or not os.path.exists(path):
        return False
    size = os.path.getsize(path)
    kept = choice.choice([choice.randint(0, size), max(0, size - choice.randint(1, 300))])
    tick(folder)
    os.truncate(path, kept)
    return True


def faults(folder, words, steps, clean):
    """What is wrong with a build after a stop, one text for each fault; and how many steps it started."""
    log, before = read_log(os.path.join(folder, LOG)), files(folder)
    report, after = run(folder, words, NAMES), files(folder)
    judge = Judge(steps, log, before, after, set(), "--by=digest" in words).wanted(steps)
    wrong = []
    if report.status != 0 or report.last != f"updated {len(judge.started)}, failed 0, skipped 0, missing 0":
        wrong.append(f"status {report.status}, {report.last}")
    if sorted(report.started) != sorted(judge.started):
        wrong.append(f"started without need: {sorted(set(report.started) - set(judge.started))}; "
                     f"not started: {sorted(set(judge.started) - set(report.started))}")
    wrong += [f"bytes of {path}" for path in differing(clean, after)]
    again = run(folder, words, NAMES)
    if again.status != 0 or again.started:
        wrong.append(f"the build after it: status {again.status}, started {again.started}")
    return wrong, len(report.started)


def rounds(count, choice, folder, words):
    """Runs so many rounds, and gives how many were wrong, stopped in the middle, and had their logs cut; and the steps started."""
    steps = steps_of(folder, make_project(choice, folder))
    run(folder, words, NAMES)
    wrong_rounds = stops = cuts = started = 0
    longest = 0.0
    for number in range(1, count + 1):
        edit(choice, folder)
        begin = time.monotonic()
        clean_report, clean = fresh(folder, words, NAMES)
        longest = max(longest * 0.9, time.monotonic() - begin)
        tick(folder)
        stops += stopped_build(choice, folder, words, longest)
        cuts += cut_log(choice, folder)
        tick(folder)
        kept = tempfile.mkdtemp(prefix="kills-")
        shutil.copytree(folder, kept, dirs_exist_ok=True)
        wrong, some = faults(folder, words, steps, clean)
        started += some
        if wrong or clean_report.status != 0:
            wrong_rounds += 1
            print(f"round {number}: the folder before the second build is kept at {kept}", *wrong, sep="\n  ", flush=True)
            shutil.rmtree(os.path.join(folder, "bin"))
        else:
            shutil.rmtree(kept)
    return wrong_rounds, stops, cuts, started


def main(words):
    count = int(words[0]) if words else 200
    seed = int(words[1]) if len(words) > 1 else 1
    program()
    with tempfile.TemporaryDirectory() as work:
        folder = os.path.join(work, "project")
        os.mkdir(folder)
        wrong, stops, cuts, started = rounds(count, random.Random(seed), folder, ["-j4"] + words[2:])
    print(f"{count} rounds, seed {seed}{' '.join([''] + words[2:])}: {stops} builds were stopped, {cuts} logs were cut, "
          f"{started} steps were started afterwards; {wrong} rounds were wrong")
    return 1 if wrong else 0


if __name__ == "__main__":
    sys.exit(main(sys.argv[1:]))
