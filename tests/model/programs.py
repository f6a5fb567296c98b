"""Runs of the three programs."""
from typing import NamedTuple

from . import words as command_line
from .depfile import depfile
from .folder import Folder, Stop
from .merge import Merge
from .names import Names
from .outputs import Outputs
from .printing import Printer
from .scan import Scan

LETTERS = {'b': True, 'p': True, 'h': True, 's': False}     # with their defaults


class Run(NamedTuple):
    files: dict         # all files that stand there afterwards
    out: bytes          # standard output
    log: bytes          # standard error
    status: int
    stopped: bool       # where a run stops, how much it printed before is open


def run(program, words, inputs, files):
    """`words` and `inputs` are bytes. `files` maps names to bytes, or to None for a folder."""
    folder = Folder(files)
    log = []
    out = []
    try:
        read = command_line.read(program, words)
        faults = PROGRAMS[program](read, command_line.inputs(inputs), folder, out, log)
        stopped = False
    except Stop as stop:
        log.append(b'! ' + stop.args[0])
        faults, stopped = True, True
    logged = b''.join(line + b'\n' for line in log)
    return Run(folder.files, b''.join(out), logged, int(bool(faults)), stopped)


def placed(fault, names):
    return b'%s:%d: ! %s' % (names[fault.place.file], fault.place.line, fault.text)


def wmerge(words, inputs, folder, out, log):
    """Prints lines while it reads; a stop leaves those that came before it."""
    merger = Merge(words, inputs, folder)
    try:
        merger.run()
    finally:
        out += [text + b'\n' for text, _ in merger.lines]
    log += [placed(fault, merger.names) for fault in merger.faults]
    return merger.faults


class Tangled:
    """What ctangle and wdep share: the faults, the outputs and the tokens."""

    def __init__(self, words, inputs, folder):
        self.merger = Merge(words, inputs, folder).run()
        self.scan = Scan(self.merger.lines).run()
        self.names = Names(self.scan.occurrences, self.scan.parts)
        self.outputs = Outputs(self.names, words.main)
        places = self.merger.faults + self.scan.faults
        self.faults = [placed(fault, self.merger.names) for fault in places]
        self.faults += [b'! ' + text for text in self.names.faults]
        if self.outputs.fault is not None:
            self.faults.append(b'! ' + self.outputs.fault)
        # A web without program text is a warning, not a fault; the main file is written.
        self.warned = self.outputs.fault is None and self.outputs.no_text
        self.lines = self.faults + ([b'! No program text'] if self.warned else [])


def ctangle(words, inputs, folder, out, log):
    on = LETTERS | words.options
    if on['b']:
        log.append(b'This is CTANGLE, profile of CWEB 3')
    tangled = Tangled(words, inputs, folder)
    scan, outputs = tangled.scan, tangled.outputs
    if on['p'] and scan.starred:
        log.append(b''.join(b'*%d' % number for number in scan.starred))
    log += tangled.lines
    printer = Printer(tangled.merger.names, scan.replacements, scan.macros)
    has_defs = any(kind == 'Defs' for part in scan.parts for kind, _ in part.tokens)
    for name in outputs.order if outputs.fault is None else []:
        if on['p']:
            log.append(b'Writing ' + name)
        folder.write(name, printer.file(outputs.tokens(name, has_defs)))
    if on['s']:
        counts = scan.sections, len(tangled.names.full), len(scan.macros)
        log.append(b'Sections: %d. Names: %d. Macros: %d.' % counts)
    if on['h']:
        log.append(closing(tangled))
    return tangled.faults


def closing(tangled):
    if tangled.faults:
        return b'(Faults: %d.)' % len(tangled.faults)
    return b'(Did you see the warning?)' if tangled.warned else b'(No errors were found.)'


def wdep(words, inputs, folder, out, log):
    """Writes no file: it prints the rule where the outputs are known. +m keeps the main file."""
    tangled = Tangled(words, inputs, folder)
    log += tangled.lines
    if tangled.outputs.fault is None:
        targets = tangled.outputs.order[:1 if words.options.get('m') else None]
        out.append(depfile(targets, tangled.merger.names))
    return tangled.faults


PROGRAMS = {'ctangle': ctangle, 'wmerge': wmerge, 'wdep': wdep}
