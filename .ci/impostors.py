"""The must-fail edits as lists of impostors, and what keeps those of one file apart.

An edit file holds impostors, each begun by a line `# impostor NAME: what it is` and a line
`# refused: PLACE NAME`, and then `file:`, `old:` and `new:` lines as `rt` reads them. Where a file
holds several, each changes function bodies alone, or a constant that one function uses, and no two
change the same function: a function is held to its contract over the contracts of what it calls, so
what one impostor does to a function cannot be the reason why another function is refused."""
import glob
import os
import re
from collections import Counter

HEAD = re.compile(r'^( *)(?:pub )?(?:extern "C" )?fn (\w+)')
CONSTANT = re.compile(r'^(pub )?const (\w+)\b')


class Impostor:
    def __init__(self, words, lines):
        self.name, _, self.words = words.partition(': ')
        self.lines = ['# impostor ' + words] + lines
        self.places = [tuple(s[len('# refused: '):].split(' ')) for s in lines if s.startswith('# refused: ')]
        self.changes = list(changes(lines))


class Edit:
    """One edit file of a crate."""

    def __init__(self, path):
        self.path, self.crate = path, path.split('/')[-3]
        self.label = os.path.basename(path)[:-len('.edit')]
        with open(path, encoding='utf-8') as file:
            before, *parts = re.split(r'^# impostor ', file.read(), flags=re.M)
        self.before = before.strip()
        self.impostors = [Impostor(p.split('\n')[0], p.rstrip('\n').split('\n')[1:]) for p in parts]


def changes(lines):
    """The file, the old and the new text of each replacement."""
    file = old = None
    for line in lines:
        word, _, rest = line.partition(':')
        if word in ('file', 'old', 'new'):
            rest = rest[1:] if rest.startswith(' ') else rest
            if word == 'file':
                file = rest
            elif word == 'old':
                old = rest
            else:
                yield file, old, rest


def edits(root):
    return [Edit(path) for path in sorted(glob.glob(os.path.join(root, 'crates/*/must-fail/*.edit')))]


def parted(text):
    """The bodies of the functions of a file of code, by name, and the lines outside them without
    comments: contracts, constants, types, imports."""
    bodies, outside, lines, at = {}, [], text.split('\n'), 0
    while at < len(lines):
        line, head = lines[at], HEAD.match(lines[at].replace('#[no_mangle] ', ''))
        at += 1
        if not line.lstrip().startswith('//') and line.strip():
            outside.append(line)
        if head:
            indent, name = head.groups()
            while not (line.endswith('{') and (line == indent + '{' or HEAD.match(line))):
                line = lines[at]
                outside.append(line)
                at += 1
            start = at
            while lines[at] != indent + '}':
                at += 1
            bodies[name] = '\n'.join(lines[start:at])
            at += 1
    return bodies, outside


def applied(impostor, folder):
    """The texts of the files that an impostor changes, before and after; and what is wrong."""
    texts, wrong = {}, []
    for file, old, new in impostor.changes:
        path = os.path.join(folder, file or '')
        if not os.path.isfile(path):
            return {}, ['names no file: %s' % file]
        if file not in texts:
            with open(path, encoding='utf-8') as source:
                text = source.read()
            texts[file] = (text, text)
        before, after = texts[file]
        if not old or after.count(old) != 1:
            wrong.append('has an old text that stands %d times in %s' % (after.count(old or '\0'), file))
        texts[file] = (before, after.replace(old or '\0', new, 1))
    return texts, wrong


def outside_changes(before, after):
    """The lines outside the bodies that went and that came."""
    old, new = Counter(before), Counter(after)
    return list((old - new).elements()), list((new - old).elements())


def users(folder, file, after, constant):
    """The functions that use a constant, in the file as changed and in the crate's other files; and
    whether anything but a function does."""
    found, elsewhere = set(), False
    for path in sorted(glob.glob(os.path.join(folder, 'src/*.rt'))):
        name = os.path.relpath(path, folder)
        with open(path, encoding='utf-8') as source:
            bodies, outside = parted(after if name == file else source.read())
        uses = re.compile(r'\b%s\b' % constant)
        found |= {(name, f) for f, body in bodies.items() if uses.search(body)}
        rest = [s for s in outside if uses.search(s) and not s.startswith('use ')]
        elsewhere |= len(rest) > (name == file)
    return found, elsewhere


def changed_functions(impostor, folder):
    """The functions that an impostor changes, each with its file; and what is wrong where it shares
    its file with others."""
    texts, wrong = applied(impostor, folder)
    touched = set()
    for file, (before, after) in texts.items():
        if not file.startswith('src/'):
            wrong.append('changes a definition: %s' % file)
            continue
        (old, old_outside), (new, new_outside) = parted(before), parted(after)
        touched |= {(file, f) for f in old.keys() & new.keys() if old[f] != new[f]}
        if old.keys() != new.keys():
            wrong.append('takes a function away or adds one: %s' % file)
        for line in sum(outside_changes(old_outside, new_outside), []):
            constant = CONSTANT.match(line)
            if line.startswith('use '):
                continue
            if not constant or constant.group(1):
                wrong.append('changes what no function body has: %s' % line.strip())
                continue
            own, elsewhere = users(folder, file, after, constant.group(2))
            if len(own) > 1 or elsewhere:
                wrong.append('changes a constant with other users: %s' % constant.group(2))
            touched |= own
    return touched, wrong


def of_function(place, touched):
    """Whether a place is a function that was changed, or stands in the folder of its proof."""
    file, name = place
    if file.startswith('src/'):
        return place in touched
    folder = re.sub(r'/Proof(\.antt|/\w+\.antt)$', '', file).split('/')[-1]
    members = {re.split('-', member)[-1] for member in folder.split('+')}
    return any(function in members for _, function in touched)


def promises_kept(impostor, folder):
    """What is wrong with an impostor whatever else its file holds."""
    texts, wrong = applied(impostor, folder)
    for file, (before, after) in texts.items():
        if not file.startswith(('src/', 'specs/')):
            wrong.append('changes neither code nor a definition: %s' % file)
        elif file.startswith('src/'):
            moved = sum(outside_changes(parted(before)[1], parted(after)[1]), [])
            if any(re.match(r'\s*(requires|ensures)\b', line) for line in moved):
                wrong.append('changes a contract: %s' % file)
    return wrong
