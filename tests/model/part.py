"""The tokens of one part or macro, and the directive that its last token stands in.

A token is a pair of a kind and a value. A directive begins at a `#` after a Newline or Mark, in a
part only. It lasts to the next Newline or Mark, unless that is a Newline after a `\\`. A layout
token that a Join takes away counts as never given, so a directive may come back with it.
"""
LAYOUT = ('Blank', 'Newline', 'Mark')
LINE_BREAKS = ('Newline', 'Mark')
HASH = ('Punct', b'#')
BACKSLASH = ('Punct', b'\\')
INCLUDE = ('Word', b'include')


class Part:
    """`owner` is 'macro', 'unnamed', or the index of the occurrence that opened a named part."""

    def __init__(self, owner):
        self.owner = owner
        self.is_macro = owner == 'macro'
        self.tokens = []
        self.after = []         # for each token: the directive open after it, or None

    def last(self):
        return self.tokens[-1] if self.tokens else ('', None)

    def directive(self):
        """The open directive: the place of its `#` in the text and among the tokens."""
        return self.after[-1] if self.after else None

    def push(self, kind, value=None, at=0):
        token = (kind, value)
        state = self.directive()
        if state is None and token == HASH and not self.is_macro and self.last()[0] in LINE_BREAKS:
            state = (at, len(self.tokens))
        elif kind in LINE_BREAKS and not (kind == 'Newline' and self.last() == BACKSLASH):
            state = None
        self.tokens.append(token)
        self.after.append(state)

    def blank(self):
        """Blanks count in a directive alone, and one Blank is enough."""
        if self.directive() and self.last()[0] != 'Blank':
            self.push('Blank')

    def join(self):
        """Layout before a Join goes, but a macro keeps its name and the Blank after it."""
        kept = 2 if self.is_macro else 0
        while len(self.tokens) > kept and self.last()[0] in LAYOUT:
            self.tokens.pop()
            self.after.pop()
        self.push('Join')

    def wants_file(self):
        """Whether the directive holds `#`, `include` and Blanks so far, and nothing else."""
        state = self.directive()
        if not state:
            return False
        return [t for t in self.tokens[state[1]:] if t[0] != 'Blank'] == [HASH, INCLUDE]

    def close_macro(self):
        """Newlines at its end go, and then one Blank."""
        while self.last()[0] == 'Newline':
            self.tokens.pop()
        if self.last()[0] == 'Blank':
            self.tokens.pop()
