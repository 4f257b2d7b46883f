"""What the tools share that build the input of a program of cases, and what it must print, from lists of cases."""
import os
import re
import sys

# Where the rows of each kind begin in a policy's table, and how many rows it has.
PARTS = {'header': 0, 'partitions': 1, 'groups': 9, 'subjects': 25, 'frames': 41, 'events': 169, 'traps': 425,
         'targets': 1385, 'routes': 1897}
ROWS = 2153


def folder(crate):
    return os.path.join(os.path.dirname(os.path.abspath(__file__)), '..', 'crates', crate)


def raw(line):
    """The bytes of a line as a list writes it: \\b is a blank, \\t, \\r, \\0 and \\xHH are those bytes."""
    line = re.sub(r'\\x([0-9A-F]{2})', lambda m: chr(int(m.group(1), 16)), line)
    for mark, byte in ((r'\b', ' '), (r'\t', '\t'), (r'\r', '\r'), (r'\0', '\0')):
        line = line.replace(mark, byte)
    return line.encode('latin-1')


def entries(path, texts):
    """The lines of a list, each with its number. Comments are left out; what follows a line 'text NAME', up to an empty line,
    becomes that text."""
    giving = None
    for number, line in enumerate(open(path, encoding='utf-8').read().split('\n'), 1):
        if giving is not None:
            if line:
                giving.append(line)
            else:
                giving = None
        elif line.startswith('text '):
            giving = texts[line[5:]] = []
        elif not line.startswith('#'):
            yield number, line


def unlike(names):
    """Two cases of one name are an error."""
    for name in names:
        if names.count(name) > 1:
            sys.exit(f'two cases: {name}')


def put(tool, crate, count, files):
    """Writes the files of a crate; with --check, says whether they are so, by the exit status too."""
    paths = {name: os.path.join(folder(crate), name) for name in files}
    if sys.argv[1:] == ['--check']:
        wrong = [n for n, path in paths.items() if not os.path.exists(path) or open(path, 'rb').read() != files[n]]
        print(f'{tool}: {count} cases, ' + (f"not as built: {', '.join(wrong)}" if wrong else 'as built'))
        sys.exit(1 if wrong else 0)
    for name, path in paths.items():
        with open(path, 'wb') as f:
            f.write(files[name])
