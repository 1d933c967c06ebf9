"""Packs of wrong answers, crates/CRATE/must-fail/*.edit, and what the prover's log says of each part. docs/STATEMENTS.md, "Packs", says how one is written.

A part is its name, what is meant, the place at which it must be refused, and its replacements:

    # digits_in_range_always
    # what does not read as a number is not in range
    # refused at: src/digits.rt digits_in_range returns
    file: src/digits.rt
    old:         Err(_) => false,
    new:         Err(_) => true,

A place is `src/FILE.rt FUNCTION GOAL`, whether the prover answers that goal or a proof file does, or `FILE DECLARATION` of an .antt file of the crate.
"""
import glob
import os
import re

PLACE = re.compile(r'(?:proofs|specs)/\S+\.antt \S+|src/\S+\.rt \w+ \S+')
# the lines of a log that refuse: a declaration of an .antt file; a goal that is open in a function, by the line of the code that has to meet it; and the open goals
# of a function that has no answers of its own
REFUSED = re.compile(r'(\S+?\.antt):\d+:\d+: error: `([^`]+)`: (.*)')
NOT_PROVED = re.compile(r'note: (\S+?\.rt):(\d+):\d+: it is not proved that .*\(`([^`\s]+)`\)(?:;.*)?$')
OPEN = re.compile(r'(fn (\w+(?:::\w+)*): no proof: .*; `search` did not prove )(`[^`]+`(?:, `[^`]+`)*)(.*)')
# what refuses a declaration for another's sake: what it cites was not admitted, or is gone
FOLLOWS = re.compile(r'was not admitted|has no field|is not in scope|has no `')
# the files that hold a function's proof
ANSWERS = re.compile(r'proofs/(.+)/(?:Answers|Invariants|Proof)\.antt')


class Part:
    def __init__(self, name):
        self.name, self.place, self.edits, self.lines, self.faults = name, None, [], [], []


def read(path):
    """The parts of a pack and what is wrong with its text. A file with no name in it is one part without a place, under the file's name."""
    parts, faults, file, old = [], [], None, None
    text = open(path, encoding='utf-8').read()
    if not re.search(r'^# \w+$', text, re.M):
        parts.append(Part(os.path.splitext(os.path.basename(path))[0]))
        parts[0].lines.append(f'# {parts[0].name}')
    for at, line in enumerate(text.split('\n'), 1):
        named = re.fullmatch(r'# (\w+)', line)
        if named:
            parts.append(Part(named.group(1)))
            file = old = None
        elif line and not parts:
            faults.append(f'line {at} stands above the first name')
        elif line.startswith('# refused at:'):
            if parts[-1].place:
                parts[-1].faults.append('it has two places')
            parts[-1].place = line[len('# refused at:'):].strip()
        elif line.startswith('file: '):
            file = line[len('file: '):]
        elif line.startswith('old: '):
            old = line[len('old: '):]
        elif line.startswith('new:'):
            if file is None or old is None:
                parts[-1].faults.append(f'line {at}: a new text without a file and an old text of its own')
            else:
                parts[-1].edits.append((file, old, re.sub('^ ', '', line[len('new:'):])))
            old = None
        elif line and not line.startswith('# '):
            faults.append(f'line {at} is no line of a pack')
        if line and parts:
            parts[-1].lines.append(line)
    for part in parts:
        if part.place is None:
            part.faults.append('no line says where it is refused')
        elif not PLACE.fullmatch(part.place):
            part.faults.append(f'{part.place} is no place')
        if not part.edits:
            part.faults.append('it replaces nothing')
    return parts, faults


def packs(crate):
    return sorted(glob.glob(f'crates/{crate}/must-fail/*.edit'))


def crates():
    return sorted({path.split('/')[1] for path in glob.glob('crates/*/must-fail/*.edit')})


def texts(folder):
    """What the prover is given of a crate's folder: each file and its text."""
    found = {}
    for kind in ('src', 'specs', 'proofs'):
        for path in glob.glob(f'{folder}/{kind}/**/*', recursive=True):
            if os.path.isfile(path):
                found[os.path.relpath(path, folder)] = open(path, encoding='utf-8').read()
    return found


def edited(found, parts):
    """The texts with these parts in place, as rt replaces; an old text that is not there exactly once is a KeyError."""
    found = dict(found)
    for part in parts:
        for file, old, new in part.edits:
            if found.get(file, '').count(old) != 1:
                raise KeyError(f'{part.name}: its old text stands {found.get(file, "").count(old)} times in {file}')
            found[file] = found[file].replace(old, new)
    return found


def source_of(folder, modules):
    """The source file of a function that stands in these modules, or in a type of them."""
    names = [f'src/{"/".join(modules[:upto])}{end}' for upto in range(len(modules), 0, -1) for end in ('.rt', '/mod.rt')] + ['src/lib.rt', 'src/main.rt']
    return next((name for name in names if os.path.exists(f'{folder}/{name}')), names[0])


def function_at(folder, source, line):
    """The function whose code has this line; a goal of the whole function is told by the line where it begins, with its attributes."""
    lines = [text.split('//')[0] for text in open(f'{folder}/{source}', encoding='utf-8').read().split('\n')]
    heads = [(number, named.group(1)) for number, text in enumerate(lines, 1) for named in [re.search(r'\bfn (\w+)', text)] if named]
    if lines[line - 1].lstrip().startswith('#['):
        return next((name for number, name in heads if number >= line), '?')
    return next((name for number, name in reversed(heads) if number <= line), '?')


def canonical(place, folder):
    """A place as the function's goal, where it names the file of its answers."""
    file, *name = (place or '?').split()
    of_function = ANSWERS.fullmatch(file)
    if not of_function:
        return place
    # (a cycle of functions has its proofs in a folder that begins with +)
    *modules, function = [part.lstrip('+') for part in of_function.group(1).split('/')]
    return ' '.join([source_of(folder, modules), function, *name])


def places(line, folder):
    """The places that a line of a log refuses, and whether it does so for another's sake alone."""
    found = REFUSED.match(line)
    if found:
        path, declaration, said = found.groups()
        path = os.path.relpath(path, folder) if os.path.isabs(path) else os.path.normpath(path)
        made = [f'{path} {declaration}', canonical(f'{path} {declaration}', folder)]
        return list(dict.fromkeys(made)), bool(FOLLOWS.search(said))
    found = NOT_PROVED.match(line)
    if found:
        source = os.path.normpath(found.group(1))
        return [f'{source} {function_at(folder, source, int(found.group(2)))} {found.group(3)}'], False
    found = OPEN.match(line)
    if found:
        *modules, function = found.group(2).split('::')[1:]
        return [f'{source_of(folder, modules)} {function} {goal}' for goal in re.findall(r'`([^`]+)`', found.group(3))], False
    return [], False


def refusals(log, folder):
    """The places that a log refuses, in its order, and those that it refuses only for another's sake."""
    own, after = [], []
    for line in log.split('\n'):
        made, follows = places(line, folder)
        (after if follows else own).extend(made)
    return list(dict.fromkeys(own)), list(dict.fromkeys(after))


def without(log, folder, place):
    """The log with this one refusal taken out, in each line that tells of it."""
    kept = []
    for line in log.split('\n'):
        found = OPEN.match(line)
        if found:
            goals = re.findall(r'`[^`]+`', found.group(3))
            left = [goal for goal in goals if place not in places(found.group(1) + goal, folder)[0]]
            if not left:
                continue
            line = found.group(1) + ', '.join(left) + found.group(4)
        elif place in places(line, folder)[0]:
            continue
        kept.append(line)
    return '\n'.join(kept)
