"""Run by planning.sh: writes projects and Jam files into the present folder, plans them by `b2 -n` and `b2 -f F`, and prints what that costs:
planning.py PROGRAM [PART ..]

A count of instructions is that of callgrind for a whole run of the program, which loads the project, plans the request and prints the
steps. With `-f` there is no `-n`: a group `none` is asked for, for which all steps of the file are made and none is run. The calls of malloc and
of realloc are those that callgrind saw in the same run."""
import os
import re
import shutil
import subprocess
import sys
import tempfile
import time
from dataclasses import dataclass

PARTS = ("a", "b", "c", "d", "e", "growth")
JOIN = "actions join { cat $(>) > $(<) }\n"
BENCH = os.path.dirname(os.path.abspath(__file__))
COUNTS = shutil.which("valgrind") is not None
NINJA = shutil.which("ninja")
# How many decimal digits the loops of (d) go through, and how often each of them stands in the project file.
DEPTHS = ((5, 4), (4, 5))


@dataclass
class Cost:
    """What a run took: instructions, calls of malloc, calls of realloc."""
    instructions: int
    mallocs: int
    reallocs: int


def put(path, text):
    os.makedirs(os.path.dirname(path), exist_ok=True)
    with open(path, "w") as file:
        file.write(text)


def plain(name):
    """The name of a function, without a mark of recursion and of the C library."""
    return name.split("'")[0].removeprefix("__libc_")


def calls_of(told, names):
    """How often each of these functions was called, by what callgrind wrote: the callee of a line `calls=` is that of the last line `cfn=`,
    whose name is told where its number stands for the first time."""
    known, counts, callee = {}, dict.fromkeys(names, 0), ""
    for line in told:
        if line.startswith(("fn=", "cfn=")):
            number, _, name = line.split("=", 1)[1].rstrip("\n").partition(" ")
            callee = known.setdefault(number, plain(name))
        elif line.startswith("calls=") and callee in counts:
            counts[callee] += int(line[len("calls="):].split()[0])
    return counts


def cost(command, folder, status=0):
    """What a run costs that ends with this status."""
    with tempfile.NamedTemporaryFile() as file:
        words = ["valgrind", "--tool=callgrind", f"--callgrind-out-file={file.name}"] + command
        ended = subprocess.run(words, cwd=folder, stdin=subprocess.DEVNULL, stdout=subprocess.DEVNULL, stderr=subprocess.PIPE)
        if ended.returncode != status:
            sys.exit(f"{' '.join(command)}: status {ended.returncode} in {folder}")
        with open(file.name) as told:
            calls = calls_of(told, ("malloc", "realloc"))
    collected = re.search(r"Collected : (\d+)", ended.stderr.decode())
    return Cost(int(collected.group(1)), calls["malloc"], calls["realloc"])


def steps(program, folder, words=()):
    """How many steps a plan has, each of which is shown by a line of its name and one of its text."""
    shown = subprocess.run([program, "-n", *words], cwd=folder, stdin=subprocess.DEVNULL, stdout=subprocess.PIPE, check=True).stdout
    return shown.count(b"\n") // 2


def tell(what, each, count, taken):
    """Prints what each of so many steps or turns takes."""
    print(f"{what}: {count:,} {each}s, {taken.instructions / count:,.0f} instructions a {each}, {taken.mallocs / count:,.2f} calls of malloc "
          f"and {taken.reallocs / count:,.2f} of realloc", flush=True)


def tell_plan(program, what, folder="."):
    """Plans the project in a folder, and prints what each step takes; gives how many steps there are."""
    count = steps(program, folder)
    tell(what, "step", count, cost([program, "-n"], folder))
    return count


def tell_ninja(count):
    """Prints what ninja takes for a dry run of the same steps, where it is there."""
    if NINJA:
        tell("  ninja -n", "step", count, cost([NINJA, "-n"], "ninja"))


def laid_out(name, *words):
    """Has a project written for each build program, in a folder of this name, which becomes the present one."""
    os.mkdir(name)
    os.chdir(name)
    subprocess.run([sys.executable, os.path.join(BENCH, "layouts.py"), *words], check=True)


def tell_tree(program):
    laid_out("tree", "tree", "2000")
    tell_ninja(tell_plan(program, "(a) calls of make in a tree", "b2"))


def tell_libraries(program):
    laid_out("libraries", "libraries", program, "50", "40")
    tell_ninja(tell_plan(program, "(b) 50 libraries of 40 C++ sources", "b2"))


def projects(count, targets):
    """Writes so many Jamfiles, each with so many calls of make, and a Jamroot that builds them all."""
    put("./Jamroot", JOIN + "".join(f"build-project d{n} ;\n" for n in range(count)))
    calls = "".join(f"make t{k} : s{k} : @join ;\n" for k in range(targets))
    for number in range(count):
        put(f"d{number}/Jamfile", calls)


def tell_projects(program):
    os.mkdir("projects")
    os.chdir("projects")
    projects(1000, 10)
    tell_plan(program, "(c) 1,000 Jamfiles of ten calls of make")


def loop(depth):
    """Loops within one another over ten digits, and the turns that they take: one for each statement and one for each round."""
    if depth == 0:
        return "X = $(d1) ; ", 1
    body, turns = loop(depth - 1)
    return f"for d{depth} in $(D) {{ {body}}} ", 1 + 10 * (1 + turns)


def tell_loops(program):
    os.mkdir("loops")
    os.chdir("loops")
    text, turns = "D = 0 1 2 3 4 5 6 7 8 9 ;\n", 1
    for depth, times in DEPTHS:
        body, taken = loop(depth)
        text, turns = text + f"{body}\n" * times, turns + taken * times
    put("./Jamroot", text)
    tell("(d) loops over ten digits within one another", "turn", turns, cost([program, "-n"], "."))
    # This one ends where no turn is left, with a refusal.
    put("./Jamroot", "X = a ;\nwhile $(X) { X = $(X) ; }\n")
    tell("(d) a loop without end", "turn", 1000000, cost([program, "-n"], ".", 2))


def calls_of_make(count):
    put("./Jamroot", JOIN + "".join(f"make t{n} : s{n} : @join ;\n" for n in range(count)))


def names(count):
    """The names of so many targets, in one list."""
    return " ".join(f"t{n}" for n in range(count))


def jam_acts(count):
    acts = "".join(f"join t{n} : s{n} ;\n" for n in range(count))
    put("./F", f"{JOIN}{acts}DEPENDS all : {names(count)} ;\nNOTFILE none ;\n")
    return ["none"]


def tell_acts(program):
    count = 10000
    os.mkdir("acts")
    os.chdir("acts")
    calls_of_make(count)
    made = cost([program, "-n"], ".")
    tell("(e) calls of make in one project", "step", count, made)
    acted = cost([program, "-f", "F", *jam_acts(count)], ".")
    tell("(e) acts of a Jam file", "step", count, acted)
    print(f"(e) an act takes {acted.instructions / made.instructions:.2f} times the instructions of a call of make", flush=True)


def jam_chain(count):
    """Groups, each of which depends on the next one."""
    put("./F", "".join(f"DEPENDS t{n} : t{n + 1} ;\n" for n in range(count - 1)) + f"NOTFILE {names(count)} ;\n")
    return ["t0"]


def jam_fan(count):
    """Files that may be missing, in one DEPENDS. Each of them is looked for."""
    put("./F", f"DEPENDS all : {names(count)} ;\nNOCARE {names(count)} ;\n")
    return []


def jam_acts_of_one(count):
    put("./F", JOIN + "".join(f"join t : s{n} ;\n" for n in range(count)) + "NOTFILE none ;\n")
    return ["none"]


def jam_act_of_many(count):
    put("./F", f"{JOIN}join {names(count)} : s ;\nNOTFILE none ;\n")
    return ["none"]


def chain(count):
    put("./Jamroot", "alias t0 : s ;\n" + "".join(f"alias t{n} : t{n - 1} ;\n" for n in range(1, count)))
    return [f"t{count - 1}"]


def fan(count):
    put("./Jamroot", f"alias base : s ;\nalias top : {names(count)} ;\n" + "".join(f"alias t{n} : base ;\n" for n in range(count)))
    return ["top"]


def tree_of_steps(count):
    put("./Jamroot", JOIN + "".join(f"make t{n} : s{n} {f't{n // 2}' if n else ''} : @join ;\n" for n in range(count)))
    return []


def feature(count):
    """The declaration of a feature with so many values."""
    return f"feature.feature f : {' '.join(f'v{n}' for n in range(count))} : propagated ;\n"


def alternatives(count):
    put("./Jamroot", feature(count) + "".join(f"alias t : s{n} : <f>v{n} ;\n" for n in range(count)))
    return [f"f=v{count - 1}", "t"]


def values(count):
    put("./Jamroot", JOIN + feature(count) + "make t : s : @join ;\n")
    return [f"f={','.join(f'v{n}' for n in range(count))}", "t"]


def requirements(count):
    properties = " ".join(f"<note>n{n}" for n in range(count))
    put("./Jamroot", f"{JOIN}feature.feature note : : free ;\nmake t : s : @join : {properties} ;\n")
    return []


def conditions(count):
    properties = " ".join(f"<f>v0:<note>n{n}" for n in range(count))
    put("./Jamroot", f"{JOIN}{feature(2)}feature.feature note : : free ;\nmake t : s : @join : {properties} ;\n")
    return []


def many_projects(count):
    projects(count, 1)
    return []


# What grows, the least N, and what writes the project for it and gives the words of its request.
SHAPES = (
    ("aliases in a chain", 2000, chain),
    ("aliases in a fan over one", 2000, fan),
    ("calls of make in a tree", 1000, tree_of_steps),
    ("alternatives of a target", 250, alternatives),
    ("values of a feature in a request", 250, values),
    ("requirements of a target", 1000, requirements),
    ("requirements with a condition", 500, conditions),
    ("projects", 500, many_projects),
)
# The same of Jam files.
JAM_SHAPES = (
    ("acts of a Jam file", 2500, jam_acts),
    ("acts of one target", 2500, jam_acts_of_one),
    ("targets of one act", 1250, jam_act_of_many),
    ("targets in a chain of DEPENDS", 5000, jam_chain),
    ("targets in one DEPENDS", 16384, jam_fan),
)


def seconds(command):
    """The least seconds of three runs."""
    taken = []
    for _ in range(3):
        begin = time.monotonic()
        subprocess.run(command, stdin=subprocess.DEVNULL, stdout=subprocess.DEVNULL, check=True)
        taken.append(time.monotonic() - begin)
    return min(taken)


def measure(command):
    """The instructions of a run in millions, or its seconds where they are not counted."""
    return cost(command, ".").instructions / 1000000 if COUNTS else seconds(command)


def tell_shape(command, what, least, write):
    """Prints what N, 2N and 4N of a thing take for a command, and in brackets how many times the one before."""
    told, before = [], 0
    for count in (least, 2 * least, 4 * least):
        with tempfile.TemporaryDirectory(dir=".") as folder:
            home = os.getcwd()
            os.chdir(folder)
            taken = measure([*command, *write(count)])
            os.chdir(home)
        told.append(f"{count:,}: {taken:,.2f}" + (f" ({taken / before:.2f})" if before else ""))
        before = taken
    print(f"{what}, {'millions of instructions' if COUNTS else 'seconds'}: {', '.join(told)}", flush=True)


def tell_growth(program):
    for what, least, write in SHAPES:
        tell_shape([program, "-n"], what, least, write)
    for what, least, write in JAM_SHAPES:
        tell_shape([program, "-f", "F"], what, least, write)


COUNTED = {"a": tell_tree, "b": tell_libraries, "c": tell_projects, "d": tell_loops, "e": tell_acts}


def main(program, parts):
    unknown = [part for part in parts if part not in PARTS]
    if unknown:
        sys.exit(f"{' '.join(unknown)}: the parts are {' '.join(PARTS)}")
    home = os.getcwd()
    for part in parts or PARTS:
        os.chdir(home)
        if part == "growth":
            tell_growth(program)
        elif COUNTS:
            COUNTED[part](program)


main(sys.argv[1], sys.argv[2:])
