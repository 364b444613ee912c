"""Run by updates.sh and planning.py: writes one project for several build programs, into the folders b2, boost, ninja and make of the
present one: layouts.py tree COUNT, or layouts.py libraries PROGRAM [LIBRARIES SOURCES], where PROGRAM is our b2, whose commands ninja
and make are given too.

tree: so many steps; each joins a source of its own and what the step with half its number made.
libraries: static libraries of C++ sources with a header for each source, 5 of 20 where it is not said, and a program of all of them.
Each source includes a header, and through it up to five others, where there are 20. Ninja and make also have the compiler write which
headers it read, which our b2 finds by itself; Boost.Build has commands of its own."""
import os
import re
import subprocess
import sys

TOOLS = ("b2", "boost", "ninja", "make")
LIBRARIES, SOURCES = 5, 20


def put(path, text):
    os.makedirs(os.path.dirname(path), exist_ok=True)
    with open(path, "w") as file:
        file.write(text)


def everywhere(path, text):
    for tool in TOOLS:
        put(f"{tool}/{path}", text)


def put_builds(steps, shared=""):
    """Writes what ninja and make read. Each step has an output, inputs, a command, and perhaps a file that tells its headers. Where all
    steps have one command but for their files, it is given too, as ninja spells it."""
    ninja, make = [f"rule shared\n  command = {shared}\n"] if shared else [], ["all: " + " ".join(out for out, _, _, _ in steps)]
    for number, (out, inputs, command, headers) in enumerate(steps):
        command = command.replace("$", "$$")
        told = f"  depfile = {headers}\n  deps = gcc\n" if headers else ""
        if not shared:
            ninja.append(f"rule r{number}\n  command = {command}\n{told}")
        ninja.append(f"build {out}: {'shared' if shared else f'r{number}'} {' '.join(inputs)}\n")
        make.append(f"{out}: {' '.join(inputs)}\n\t{command}")
    make.append("-include " + " ".join(headers for _, _, _, headers in steps if headers))
    put("ninja/build.ninja", "".join(ninja))
    put("make/Makefile", "\n".join(make) + "\n")
    # Make does not make the folders of outputs, so the script does.
    put("make/folders", "\n".join(sorted({os.path.dirname(out) for out, _, _, _ in steps})) + "\n")


def tree(count):
    lines, steps = ["actions join { cat $(>) > $(<) }"], []
    for number in range(1, count + 1):
        above = [f"t{number // 2}"] if number > 1 else []
        inputs = [f"s{number}"] + [f"bin/{name}" for name in above]
        lines.append(f"make t{number} : {' '.join([f's{number}'] + above)} : @join ;")
        steps.append((f"bin/t{number}", inputs, f"cat {' '.join(inputs)} > bin/t{number}", ""))
        everywhere(f"s{number}", f"{number}\n")
    put_builds(steps, "cat $in > $out")
    for tool in ("b2", "boost"):
        put(f"{tool}/Jamroot", "\n".join(lines) + "\n")


def put_library(number, count):
    """Writes a library: its headers, each of which includes the one with half its number, its sources, its Jamfile."""
    name = f"l{number}"
    for k in range(count):
        above = f'#include "h{k // 2}.h"\n' if k else "#include <vector>\n"
        everywhere(f"{name}/include/{name}/h{k}.h", f"#pragma once\n{above}int {name}_f{k}(int value);\n")
        body = f"std::vector<int> values(value, {k}); return static_cast<int>(values.size()) + {name}_f{k // 2}(0);" if k else "return value;"
        everywhere(f"{name}/f{k}.cpp", f"#include <{name}/h{k}.h>\nint {name}_f{k}(int value) {{ {body} }}\n")
    sources = " ".join(f"f{k}.cpp" for k in range(count))
    everywhere(f"{name}/Jamfile", f"lib {name} : {sources} : <link>static <include>include : : <include>include ;\n")


def step_of(start, command):
    """A step of the plan of our b2 as ninja and make need it."""
    out = start.split(" ", 1)[1]
    if " -c -o " in command:
        headers = re.sub(r"\.o$", ".d", out)
        return out, [command.rsplit('"', 2)[1]], command.replace(" -c -o ", " -MMD -c -o "), headers
    inputs = [path for path in dict.fromkeys(re.findall('"([^"]*)"', command)) if path != out]
    return out, inputs, command, ""


def libraries(program, count, sources):
    names, last = range(count), sources - 1
    for number in names:
        put_library(number, sources)
    everywhere("main.cpp", "".join(f"#include <l{n}/h{last}.h>\n" for n in names)
               + f"int main() {{ return {' + '.join(f'l{n}_f{last}(0)' for n in names)}; }}\n")
    everywhere("Jamroot", f"using gcc ;\nexe app : main.cpp {' '.join(f'l{n}//l{n}' for n in names)} ;\n")
    lines = subprocess.run([program, "-n"], cwd="b2", stdout=subprocess.PIPE, check=True).stdout.decode().splitlines()
    put_builds([step_of(start, command) for start, command in zip(lines[0::2], lines[1::2])])


if sys.argv[1] == "tree":
    tree(int(sys.argv[2]))
else:
    libraries(sys.argv[2], *(int(word) for word in sys.argv[3:] or (LIBRARIES, SOURCES)))
