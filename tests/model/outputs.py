"""The output files, their order, and the one fault that forbids them all."""
from .folder import is_plain

DEFS = ('Defs', None)


class Outputs:
    """The main file comes first, then each file name that has a part, by first file occurrence."""

    def __init__(self, names, main):
        self.names = names
        self.lists = {main: names.unnamed or []}
        files = [name for name in names.files if name in names.joined]
        self.order = [main] + files
        self.no_text = names.unnamed is None and not files
        self.fault = self.bad_name() or self.same_name(main) or self.cycle()
        if self.fault is None:
            self.lists.update((name, names.joined[name]) for name in files)

    def bad_name(self):
        bad = next((name for name in self.order if not is_file_name(name)), None)
        return None if bad is None else b'Bad output name: <%s>' % bad

    def same_name(self, main):
        """A file name counts here even where it has no part."""
        return b'Two outputs with one name: <%s>' % main if main in self.names.files else None

    def cycle(self):
        """Walks from the first output without an end, by the first used name without an end."""
        endless = self.endless()
        starts = [name for name in self.names.used(self.names.unnamed or []) if name in endless][:1]
        starts += [name for name in self.order[1:] if name in endless]
        if not starts:
            return None
        walk = starts[:1]
        while walk[-1] not in walk[:-1]:
            uses = self.names.used(self.names.joined[walk[-1]])
            walk.append(next(name for name in uses if name in endless))
        loop = walk[walk.index(walk[-1]):]
        return b'Cycle: %s' % b' '.join(b'<%s>' % name for name in loop)

    def endless(self):
        """Names whose expansion does not end: a name ends where all names that it uses do."""
        left = {name: set(self.names.used(tokens)) for name, tokens in self.names.joined.items()}
        while ended := {name for name, uses in left.items() if not uses & left.keys()}:
            left = {name: uses for name, uses in left.items() if name not in ended}
        return left.keys()

    def tokens(self, name, has_defs_code):
        """The macro lines stand first in the main file unless some C part asks for them."""
        tokens = list(self.names.expand(self.lists[name]))
        return tokens if has_defs_code or name != self.order[0] else [DEFS] + tokens


def is_file_name(name):
    return is_plain(name) and name.rsplit(b'/', 1)[-1] not in (b'', b'.', b'..')
