"""What the scripts of this folder share: where programs and tools are, the library `faults.c`, files, and lines that the programs write."""
import os
import re
import shutil
import subprocess
import sys

HERE = os.path.dirname(os.path.abspath(__file__))
# the time limit of a run: long, since a machine may run other tests beside this one
SECONDS = 120
# a program is given up after this many failed runs
SHOWN = 20
BANNER = b"This is CTANGLE, profile of CWEB 3\n"


def make_files(files):
    """Makes files in the current folder: texts by their paths, None being a folder."""
    for name, text in files.items():
        os.makedirs(name if text is None else os.path.dirname(os.path.abspath(name)), exist_ok=True)
        if text is not None:
            with open(name, "wb") as file:
                file.write(text)


def files_here():
    """The texts of all files below the current folder, by their paths."""
    found = {}
    for folder, _, names in os.walk("."):
        for name in names:
            path = os.path.normpath(os.path.join(folder, name))
            with open(path, "rb") as file:
                found[path] = file.read()
    return found


def stopped(text):
    """The log line of a run that is stopped."""
    return b"! " + text + b"\n"


def line_mark(file, line):
    return b'#line %d "%s"\n' % (line, file)


def shown(text):
    return text if len(text) < 200 else text[:60] + b" .. " + text[-60:]


def proved(name):
    """The path of a program that `make build` built."""
    return os.path.join(HERE, "../build/proved", name)


def programs_at(paths):
    """The absolute paths of built programs. The script ends if one does not exist."""
    for path in paths:
        if not os.access(path, os.X_OK):
            sys.exit(f"{path} is not built: make build")
    return [os.path.abspath(path) for path in paths]


def wanted(tool, what):
    """The path of a tool. The script ends if it does not exist."""
    found = shutil.which(tool)
    return found or sys.exit(f"{os.path.basename(sys.argv[0])} needs {tool}, {what}, which is not installed")


def compiled(folder):
    """The library `faults.so`, in a folder."""
    compiler = wanted(os.environ.get("CC", "cc"), "a C compiler (or what CC names)")
    library, source = os.path.join(folder, "faults.so"), os.path.join(HERE, "faults.c")
    subprocess.run([compiler, "-O2", "-shared", "-fPIC", "-o", library, source, "-ldl"], check=True)
    return library


def displays(page):
    """The texts that a page of man/ displays, as a reader copies them: without the escapes of roff."""
    with open(os.path.join(HERE, "../man", page), encoding="utf-8") as file:
        for text in re.findall(r"(?ms)^\.Bd -literal.*?\n(.*?)^\.Ed", file.read()):
            yield text.replace("\\&", "").replace("\\e", "\\")
