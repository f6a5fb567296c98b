"""Build files for webs, by the files of share/: for make, ninja, and CMake with both. Programs whose runs are counted."""
import os
from dataclasses import dataclass

from shared import HERE

SHARE = os.path.realpath(os.path.join(HERE, "../share"))
JOBS = "4"
# an included file of each of these names
ODD = ("a b.w", " a.w", "a\tb.w", "Knuth's.w", "a&", "a&b.w", "a*b.w", "a;b.w", "a<b.w", "a>b.w", "a?b.w", "a^b.w", "a|b.w", "a`b.w",
       "a:b.w", "a.w:", "a\\b.w", "a.w\\", "a\\ b.w", "a\\#b.w", "a#b.w", "a$b.w", "a%b.w", "a=b.w", "~a.w", "a[b].w", "a(b).w", "a(b)", "a,b.w",
       "-a.w", "a!b.w", "a{b}.w", "a@b.w", "\u00e4.w", "a.w ", "a.w\v", "a.w\f", "a.w\r", "a\vb.w", "a\rb.w")
# those that a tool misreads in a depfile
CONTROLS = ("a\tb.w", "a.w\v", "a.w\f", "a.w\r", "a\vb.w", "a\rb.w")
BY_NINJA = ("Knuth's.w", "a&", "a&b.w", "a*b.w", "a;b.w", "a<b.w", "a>b.w", "a?b.w", "a^b.w", "a|b.w", "a`b.w", "a.w:", "a.w\\", "a\\#b.w")
COLONS = ("a:b.w", "a.w:", "a\\b.w", "a.w\\", "a\\ b.w", "a\\#b.w")
MISREAD = {
    "make": (*CONTROLS, "a&", "a*b.w", "a;b.w", "a?b.w", "a|b.w", "a[b].w", "a(b)", "a.w "),
    "ninja": (*CONTROLS, *BY_NINJA),
    "CMake with make": (*CONTROLS, "a&", "a;b.w", "a|b.w", "a(b)", "a.w ", *COLONS),
    "CMake with ninja": (*CONTROLS, *BY_NINJA, *COLONS, "a#b.w", "a$b.w"),
}
# those that tangle-web refuses although the tool could read them
REFUSED = {"make": ("a.w\\",), "ninja": ("a\\ b.w", "a.w ")}


@dataclass
class Web:
    """A web: a name without extension, and its outputs, the C file first. Other files are in the source folder."""
    name: str
    outputs: list
    change: str = ""
    inputs: str = ""
    folder: str = ""

    @property
    def file(self):
        return os.path.join(self.folder, f"{self.name}.w")


def counted(folder, name, program, log):
    """A program that runs another one, and adds a line to the log if that tangles a web or compiles a C file of a project."""
    path = os.path.join(folder, name)
    with open(path, "w") as file:
        file.write(f"#!/bin/sh\ncase \"{name} $*\" in ctangle*) echo {name}\" $2\" >> '{log}' ;;\n"
                   f"*cmTC_*) ;; *' -c '*) echo {name} >> '{log}' ;; esac\nexec '{program}' \"$@\"\n")
    os.chmod(path, 0o755)
    return path


def write(folder, name, text):
    """Writes a file, unless it has this text."""
    path = os.path.join(folder, name)
    if os.path.exists(path):
        with open(path) as file:
            if file.read() == text:
                return
    with open(path, "w") as file:
        file.write(text)


class Make:
    name = "make"

    @staticmethod
    def word(name):
        return name.replace(" ", "\\ ")

    def write_files(self, project, webs, compiles):
        word = self.word
        lines = [f"include {SHARE}/lozgirpa.mk", "all:"]
        for web in webs:
            outputs = " ".join(word(output) for output in web.outputs)
            change, inputs = (word(name and f"../source/{name}") for name in (web.change, web.inputs))
            lines.append(f"$(call web,../source/{word(web.file)},{outputs},{change},{inputs})")
            if compiles:
                lines += [f"all: {word(web.name)}.o", f"{word(web.name)}.o: {outputs}", "\t$(CC) -c -o '$@' '$<'"]
            else:
                lines.append(f"all: {word(web.outputs[0])}")
        write(project.folder, "Makefile", "\n".join([*lines, ""]))

    def command(self, project):
        return ["make", "-k", "-j", JOBS, f"CTANGLE={project.ctangle}", f"WDEP={project.wdep}", f"CC={project.cc}"]


class Ninja:
    name = "ninja"

    @staticmethod
    def word(name):
        return name.replace(" ", "$ ")

    def write_files(self, project, webs, compiles):
        word = self.word
        lines = [f"lozgirpa = {SHARE}", "include $lozgirpa/lozgirpa.ninja", f"ctangle = {project.ctangle}", f"wdep = {project.wdep}",
                 "rule cc", f"  command = {project.cc} -c -o $out $in"]
        for web in webs:
            outputs = " ".join(word(output) for output in web.outputs)
            listed = " ".join(f"'{output}'" for output in web.outputs)
            change = web.change and f" | ../source/{word(web.change)}"
            lines += [f"build .webs/{word(web.name)}.stamp | {outputs}: tangle ../source/{word(web.file)}{change}",
                      f"  outputs = {listed}"]
            lines += [f"  {name} = ../source/{file}" for name, file in (("change", web.change), ("inputs", web.inputs)) if file]
            if compiles:
                others = "".join(f" | {word(output)}" for output in web.outputs[1:])
                lines.append(f"build {word(web.name)}.o: cc {word(web.outputs[0])}{others}")
        write(project.folder, "build.ninja", "\n".join([*lines, ""]))

    def command(self, project):
        return ["ninja", "-k", "0", "-j", JOBS]


class CMake:
    name, generator, go_on = "CMake with make", "Unix Makefiles", "-k"

    def write_files(self, project, webs, compiles):
        lines = ["cmake_minimum_required(VERSION 3.20)", f"project(webs {'C' if compiles else 'NONE'})",
                 f'list(APPEND CMAKE_MODULE_PATH "{SHARE}")', "include(UseLozgirpa)"]
        for number, web in enumerate(webs):
            outputs = " ".join(f'"{output}"' for output in web.outputs)
            more = "".join(f' {name} "{file}"' for name, file in (("CHANGE", web.change), ("INPUTS", web.inputs)) if file)
            # the target of each second web depends on it by a line of its own
            more += " TARGET all_webs" if number % 2 else ""
            lines.append(f'lozgirpa_web(web{number} WEB "{web.file}" OUTPUTS {outputs}{more})')
        if compiles:
            numbers = range(len(webs))
            lines += ["add_library(all_webs OBJECT", *(f"    ${{web{number}_TANGLED}}" for number in numbers), ")",
                      "add_dependencies(all_webs", *(f"    web{number}_web" for number in numbers[::2]), ")"]
        else:
            lines += ["add_custom_target(all_webs ALL)", *(f"add_dependencies(all_webs web{number}_web)" for number in range(0, len(webs), 2))]
        write(project.source, "CMakeLists.txt", "\n".join([*lines, ""]))

    def command(self, project):
        programs = f"'-DCTANGLE={project.ctangle}' '-DWDEP={project.wdep}' '-DCMAKE_C_COMPILER={project.cc}'"
        configure = f"test -e CMakeCache.txt || cmake -G '{self.generator}' {programs} -S ../source -B . > configured 2>&1 || cat configured"
        return ["sh", "-c", f"{configure}; exec cmake --build . -j {JOBS} -- {self.go_on}"]


class CMakeNinja(CMake):
    name, generator, go_on = "CMake with ninja", "Ninja", "-k 0"


TOOLS = [Make(), Ninja(), CMake(), CMakeNinja()]
