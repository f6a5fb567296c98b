"""Section names: for which name each occurrence stands, and the joined text of a name."""


class Names:
    """`occurrences` are triples of text, is it a prefix, is it a file name, in order of the web."""

    def __init__(self, occurrences, parts):
        self.faults = []
        self.full = list(dict.fromkeys(text for text, prefix, _ in occurrences if not prefix))
        self.standing = []              # by occurrence: the name it stands for, or None
        earlier = {}
        for text, is_prefix, _ in occurrences:
            if not is_prefix:
                earlier[text] = True
            self.standing.append(self.resolve(text, earlier) if is_prefix else text)
        pairs = zip(self.standing, occurrences)
        files = (name for name, (_, _, is_file) in pairs if is_file and name is not None)
        self.files = list(dict.fromkeys(files))
        self.join(parts)
        self.faults += [b'Name is a prefix of another: <%s>' % name
                        for name in self.full if self.is_prefix(name)]
        needed = {name for part in parts for name in self.used(part.tokens)} | set(self.files)
        self.faults += [b'Not present: <%s>' % name for name in self.full
                        if name in needed and name not in self.joined]

    def resolve(self, prefix, earlier):
        """Names given earlier decide. Where none fits, the names of the whole web do."""
        for names in (earlier, self.full):
            fitting = [name for name in names if name.startswith(prefix)]
            if len(fitting) == 1:
                return fitting[0]
            if fitting:
                self.faults.append(b'Ambiguous prefix: <%s...>' % prefix)
                return None
        self.faults.append(b'Never given in full: <%s...>' % prefix)
        return None

    def is_prefix(self, name):
        return any(other != name and other.startswith(name) for other in self.full)

    def join(self, parts):
        """Parts of one name are joined in order. A faulty definition belongs to no name."""
        self.joined = {}
        self.unnamed = None             # None where the web has no unnamed part
        for part in parts:
            if part.owner == 'unnamed':
                self.unnamed = (self.unnamed or []) + part.tokens
            elif (name := self.standing[part.owner]) is not None:
                self.joined.setdefault(name, []).extend(part.tokens)

    def used(self, tokens):
        """The names that a token list uses, in order; a faulty use has none."""
        stands = (self.standing[value] for kind, value in tokens if kind == 'Name')
        return [name for name in stands if name is not None]

    def expand(self, tokens):
        """Replaces each use by the joined text of its name, and that of a faulty use by nothing."""
        stack = [iter(tokens)]
        while stack:
            token = next(stack[-1], None)
            if token is None:
                stack.pop()
            elif token[0] != 'Name':
                yield token
            elif (name := self.standing[token[1]]) is not None:
                stack.append(iter(self.joined.get(name, ())))
