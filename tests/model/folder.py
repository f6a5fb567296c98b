"""The folder that a run reads and writes.

A run sees a finite map from names to bytes. A real folder has more names for one file (`./a`), and
a folder can be opened like a file but not read. Both are modelled here.
"""
import re

BLANKS = b' \t\r\v\f'
LINE_LIMIT = 1_048_575
BYTES_LIMIT = 1_073_741_824
LINES_LIMIT = 16_777_216
NAME_LIMIT = 255
# No machine has this folder, so the model can tell what stands there.
NOT_THERE = re.compile(rb'/+not-there(/|\Z)')


class Stop(Exception):
    """Ends a run. Its text is the last line of the log."""


class Outside(Exception):
    """A name leads out of the folder: the model cannot tell what stands there."""


def is_utf8(name):
    try:
        name.decode()
    except UnicodeDecodeError:
        return False
    return True


def is_plain(name):
    """What words and output names have in common: UTF-8 without control bytes."""
    return is_utf8(name) and all(byte >= 32 and byte != 127 for byte in name)


class Folder:
    """`files` maps names to bytes; None in place of the bytes means a folder."""

    def __init__(self, files):
        self.files = {name: text for name, text in files.items() if text is not None}
        self.folders = {b''} | {name for name, text in files.items() if text is None}
        for name in files:
            parts = name.split(b'/')
            self.folders |= {b'/'.join(parts[:n]) for n in range(1, len(parts))}
        self.pieces = {}            # by path: the pieces of a file, each with its line
        self.bytes = self.lines = 0
        self.used = set()           # paths read or written in this run

    def path(self, name):
        """The plain path of a name, or None where a step on the way is not a folder."""
        if NOT_THERE.match(name) or not name or b'\0' in name:
            return None
        if name.startswith(b'/'):
            raise Outside(name)
        at = []
        for step in name.split(b'/'):
            if b'/'.join(at) not in self.folders:
                return None
            if step == b'..' and not at:
                raise Outside(name)
            if step == b'..':
                at.pop()
            elif step not in (b'', b'.'):
                at.append(step)
        return b'/'.join(at)

    def opens(self, name):
        """Opens a file for reading, if it is there. A folder opens too; its first read fails."""
        path = self.path(name)
        if path not in self.files and path not in self.folders:
            return False
        self.used.add(path)
        return True

    def read(self, name):
        """Gives the lines of a file, cut at newlines, each without the blanks at its end.

        Nothing after a last newline is no line; blanks after it are an empty line. The limits hold
        for lines as they stand in the file, and for all lines taken in the run. A line that nobody
        takes breaks none.
        """
        path = self.path(name)
        if path in self.folders:
            raise Stop(b'Read fault on %s' % name)
        if path not in self.pieces:
            pieces = self.files[path].split(b'\n')
            self.pieces[path] = [(piece, piece.rstrip(BLANKS)) for piece in pieces]
        pieces = self.pieces[path]
        for number, (piece, line) in enumerate(pieces, 1):
            is_last = number == len(pieces)
            if is_last and not piece:
                return
            self.bytes += len(piece) + (not is_last)
            self.lines += 1
            if len(piece) > LINE_LIMIT:
                raise Stop(b'Line too long in %s' % name)
            if self.bytes > BYTES_LIMIT or self.lines > LINES_LIMIT:
                raise Stop(b'Too much text')
            yield line

    def write(self, name, text):
        """Writes a draft beside the file, whose name is one byte longer, and renames it.

        A folder is no output, nor is a file that this run has read or written, by whatever name.
        """
        path = self.path(name)
        parts = (path or b'').split(b'/')
        if (path is None or path in self.folders or path in self.used
                or b'/'.join(parts[:-1]) not in self.folders or len(parts[-1]) >= NAME_LIMIT):
            raise Stop(b'Cannot open output file %s' % name)
        self.used.add(path)
        self.files[path] = text
