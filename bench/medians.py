"""Runs the same work of several programs in turns, and prints the median seconds of each, and how many times those of the others the
first one takes: medians.py RUNS WHAT PREPARE, then for each program its folder and its command. PREPARE is run by sh in the folder before
each run, and not measured. Each round begins with another program, so that none always comes after the same one. A program that takes
more than 30 seconds is run once."""
import statistics
import subprocess
import sys
import time

LONG = 30.0


def timed(folder, prepare, command):
    """The seconds of a run, or nothing where it fails."""
    subprocess.run(["sh", "-c", prepare], cwd=folder, check=True, stdout=subprocess.DEVNULL)
    begin = time.monotonic()
    ended = subprocess.run(["sh", "-c", f"exec {command}"], cwd=folder, stdin=subprocess.DEVNULL, stdout=subprocess.DEVNULL,
                           stderr=subprocess.DEVNULL)
    return time.monotonic() - begin if ended.returncode == 0 else None


def measured(runs, prepare, programs):
    """The seconds of all runs of each program. None stands for a run that failed, after which there is no other."""
    seconds = {folder: [] for folder, _ in programs}
    for number in range(runs):
        first = number % len(programs)
        for folder, command in programs[first:] + programs[:first]:
            taken = seconds[folder]
            if None not in taken and max(taken, default=0) <= LONG:
                taken.append(timed(folder, prepare, command))
    return seconds


def main(words):
    runs, what, prepare = int(words[0]), words[1], words[2]
    programs = list(zip(words[3::2], words[4::2]))
    seconds = measured(runs, prepare, programs)
    medians = {folder: None if None in taken else statistics.median(taken) for folder, taken in seconds.items()}
    first = medians[programs[0][0]]
    parts = []
    for folder, _ in programs:
        median = medians[folder]
        if median is None:
            parts.append(f"{folder} failed")
        elif first is None or folder == programs[0][0]:
            parts.append(f"{folder} {median:.3f} s")
        else:
            parts.append(f"{folder} {median:.3f} s ({first / median:.2f})")
    print(f"{what}: {', '.join(parts)}", flush=True)


main(sys.argv[1:])
