"""The rule that wdep prints for make and its kin."""
import re

WIDTH = 78
ESCAPED = rb' \t#:'


def depfile(targets, sources):
    """A rule of the targets and the sources, then an empty rule for each source but the first.

    An empty rule keeps make going when a file that was included is gone. To make, a line that
    begins with a name with `=` sets a variable, and so does a rule whose first source is one. So
    `/dev/null` comes before such a source, and the first source before such a name of an empty rule.
    """
    names = list(dict.fromkeys(sources))
    led = [b'/dev/null', *names] if b'=' in names[0] else names
    heads = [target(name) for name in targets]
    heads[-1] += b':'
    tails = [source(name) for name in led[:-1]] + [source(led[-1], is_last=True)]
    rules = [(target(led[0]) + b' ' if b'=' in name else b'') + target(name) + b':\n'
             for name in names[1:]]
    return filled(heads + tails) + b''.join(rules)


def target(name):
    return escaped(name, ESCAPED + b'%', rb'\Z')


def source(name, is_last=False):
    """Backslashes at the end of the last one stay single, before a blank that keeps the line end."""
    if is_last:
        return escaped(name, ESCAPED, rb'(?!)') + (b' ' if name.endswith(b'\\') else b'')
    return escaped(name, ESCAPED, rb'\Z')


def escaped(name, marks, end):
    """A mark gets a backslash; backslashes right before a mark or at an end that counts double."""
    doubled = re.sub(rb'(\\+)(?=[' + marks + rb']|' + end + rb')', rb'\1\1', name)
    return re.sub(rb'([' + marks + rb'])', rb'\\\1', doubled).replace(b'$', b'$$')


def filled(words):
    """A line takes words up to the width; each line but the first begins with a blank."""
    lines = [words[0]]
    for word in words[1:]:
        longer = lines[-1] + b' ' + word
        if len(longer) <= WIDTH:
            lines[-1] = longer
        else:
            lines.append(b' ' + word)
    return b' \\\n'.join(lines) + b'\n'
