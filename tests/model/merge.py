"""Merged lines: the web with its change file and its includes.

One list holds what is still to come, at first the web's lines. The first thing of the list decides
what happens, until the list is empty. After a change the search for the next entry stands in it.
"""
import re
from collections import deque
from typing import NamedTuple

from .folder import Stop, is_utf8

DEPTH_LIMIT = 20
# No blank is needed after the code. A name in quotes lasts to the next quote or the line end; any
# other name lasts to a space, a tab, a quote or the line end. VT, FF and CR belong to it.
INCLUDE = re.compile(rb'@[iI][ \t]*(?:"([^"]*)|([^ \t"]*))')


class Place(NamedTuple):
    file: int
    line: int


class Raw(NamedTuple):
    text: bytes
    place: Place
    depth: int
    may_match: bool


class Fault(NamedTuple):
    text: bytes
    place: Place


class Entry(NamedTuple):
    first: bytes
    place: Place        # of its @x line: most faults of an entry are reported there


SEARCH = object()


def change_code(line):
    """x, y or z where the line begins with that code, in either case; what follows is ignored."""
    code = line[:2].lower()
    return code[1:] if code in (b'@x', b'@y', b'@z') else None


class Merge:
    """`words` names the web, a second try, and the change file; `inputs` is a folder or None."""

    def __init__(self, words, inputs, folder):
        self.folder = folder
        self.inputs = inputs
        # The files in order of opening; a place names a file by its index.
        self.names = [name for name in (words.web, words.second) if name and folder.opens(name)][:1]
        if not self.names:
            raise Stop(b'Cannot open web file %s' % words.web)
        self.lines = []             # pairs of text and place
        self.faults = []
        self.entry = None           # the change entry that waits for its first line
        self.changes = iter(())
        if words.change:
            if not folder.opens(words.change):
                raise Stop(b'Cannot open change file %s' % words.change)
            self.names.append(words.change)
            lines = enumerate(folder.read(words.change), 1)
            self.changes = ((text, Place(1, number)) for number, text in lines)
        self.ahead = deque()

    def raw_lines(self, file, depth, may_match):
        lines = enumerate(self.folder.read(self.names[file]), 1)
        return [Raw(text, Place(file, n), depth, may_match) for n, text in lines]

    def run(self):
        """An entry is sought before the web is read."""
        self.search()
        self.ahead.extend(self.raw_lines(0, 1, True))
        while self.ahead:
            self.step(self.ahead.popleft())
        if self.entry:
            self.fault(b'Change entry did not match', self.entry.place)
        return self

    def step(self, thing):
        """A line is compared with the entry before it is obeyed as an include line."""
        if thing is SEARCH:
            self.search()
        elif isinstance(thing, Fault):
            self.faults.append(thing)
        elif self.entry and thing.may_match and thing.text == self.entry.first:
            self.change(thing)
        elif thing.text[:2] in (b'@i', b'@I'):
            self.include(thing)
        else:
            self.lines.append((thing.text, thing.place))

    def fault(self, text, place):
        self.faults.append(Fault(text, place))

    def include(self, line):
        """Puts the file's lines in front, one deeper. A faulty include line is dropped."""
        quoted, plain = INCLUDE.match(line.text).groups()
        name = plain if quoted is None else quoted
        if not name:
            return self.fault(b'Include file name not given', line.place)
        if line.depth == DEPTH_LIMIT:
            return self.fault(b'Too many nested includes', line.place)
        found = self.find(name)
        if found is None:
            return self.fault(b'Cannot open include file', line.place)
        self.names.append(found)
        lines = self.raw_lines(len(self.names) - 1, line.depth + 1, line.may_match)
        self.ahead.extendleft(reversed(lines))

    def find(self, name):
        """The folder of inputs comes second. A name that isn't UTF-8 is not there."""
        tries = [name] + ([self.inputs + b'/' + name] if self.inputs is not None else [])
        return next((name for name in tries if is_utf8(name) and self.folder.opens(name)), None)

    def search(self):
        """Looks for the next @x line with an old line after it; empty lines between are skipped.

        A code line or the end right after @x is a fault; the search goes on with that line.
        """
        self.entry = None
        opened = None
        for text, place in self.changes:
            code = change_code(text)
            if opened and not code and text:
                self.entry = Entry(text, opened)
                return
            if code and opened:
                self.fault(b'No old lines after @x', opened)
            if code == b'y' or code == b'z':
                self.fault(b'Missing @x in change file', place)
            if code:
                opened = place if code == b'x' else None
        if opened:
            self.fault(b'No old lines after @x', opened)

    def change(self, line):
        """Takes away the old lines, whatever they hold, and puts the new ones in front."""
        at = self.entry.place
        olds, ended = self.old_lines()
        if ended:
            self.fault(b'Change file ended before @y', at)
        taken = [self.ahead.popleft() for _ in olds[:len(self.ahead)]]
        if len(taken) < len(olds):
            self.fault(b'Web ended during a change', at)
        unequal = sum(raw.text != old for raw, old in zip(taken, olds))
        if unequal:
            self.fault(b'Lines that failed to match: %d' % unequal, at)
        new = [] if ended else self.new_lines(line.depth)
        self.ahead.extendleft(reversed(new + [SEARCH]))

    def old_lines(self):
        """The old lines after the first one, up to @y, and whether the file ended before it."""
        olds = []
        for text, place in self.changes:
            code = change_code(text)
            if code == b'y':
                return olds, False
            if code:
                self.fault(b'Where is @y?', place)
            else:
                olds.append(text)
        return olds, True

    def new_lines(self, depth):
        """The lines up to @z. Each fault among them is reported where its line would stand.

        New lines and what they include are never compared with a change entry.
        """
        new = []
        for text, place in self.changes:
            code = change_code(text)
            if code == b'z':
                return new
            new.append(Fault(b'Where is @z?', place) if code
                       else Raw(text, place, depth, False))
        return new + [Fault(b'Change file ended before @z', self.entry.place)]
