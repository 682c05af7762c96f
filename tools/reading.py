"""What to read, to believe it: the table of docs/READING.md, made from the theorems that docs/PROMISES.md names.

    python3 -m tools.reading            writes the table
    python3 -m tools.reading --check    writes nothing, and fails where the table is another, or where a theorem that the page names does not
                                        stand, as `pub`, in one of the files that its row names

A row of docs/PROMISES.md names its theorems in backquotes and their files in its last column: CRATE/proofs/FILE, then further FILEs of the same
folder, by commas; another folder after a semicolon. What a theorem's statement names, its file imports from a crate's specs/; what these
files import from specs/ again belongs to it. The page lists all of them with their lines, so that a reader sees how much there is to believe.
"""
import os
import re
import sys

from tools import edits

PAGE = os.path.join(edits.ROOT, 'docs', 'PROMISES.md')
READING = os.path.join(edits.ROOT, 'docs', 'READING.md')
HEAD = '| crate | its theorems (lines) | the definitions that their statements stand on (lines) |\n|---|---|---|\n'
IMPORT = re.compile(r'^use Rattle\.(\w+)\.specs\.(\w+)(?:\.\{(.*)\}| as (\w+))$')
STATEMENT = re.compile(r'^( *)pub ([^\s:]+) :')


def path_of(crate, folder, module):
    return os.path.join(edits.ROOT, 'crates', crate, folder, module.replace('.', '/') + '.antt')


def rows():
    """Of each row of the page's table of theorems: the law names, and the files as pairs of crate and module below proofs/."""
    for line in edits.read(PAGE).split('| of | theorem | where |')[1].split('\n\n')[0].splitlines()[2:]:
        _, _, said, where, _ = line.replace('\\|', '').split('|')
        files = []
        for folder in where.split(';'):
            first, *more = [word.strip() for word in folder.split(',')]
            crate, proofs, module = first.split('/', 2)
            assert proofs == 'proofs', line
            below = module.rpartition('/')[0]
            files += [(crate, module)] + [(crate, os.path.join(below, name)) for name in more]
        yield re.findall(r'`([^`]+)`', said), files


def statements(text):
    """The lines of each public law's statement, by its name, with those of the modules around it."""
    found, around, name, depth = {}, [], None, 0
    for line in text.splitlines():
        if not line.strip() or line.lstrip().startswith('--'):
            continue
        indent = len(line) - len(line.lstrip())
        around = [(far, said) for far, said in around if far < indent or (far == indent and name and line.lstrip().startswith(name))]
        begins = STATEMENT.match(line)
        if begins:
            name, depth = begins.group(2), indent
            found[name] = [said for _, said in around] + [line]
        elif line.lstrip().startswith('module '):
            around.append((indent, line))
            name = None
        elif name and indent > depth and not line.lstrip().startswith(name + ' '):
            found[name].append(line)
        else:
            name = None
    return found


def imports(text):
    """The definitions that a file imports from specs/, each with its crate and module. A type of the code itself is none, and the kit's are not ours."""
    for line in text.splitlines():
        found = IMPORT.match(line)
        if found and os.path.exists(path_of(found.group(1), 'specs', found.group(2))):
            for name in (found.group(3) or found.group(4)).split(','):
                yield name.strip(), (found.group(1), found.group(2))


def words(lines):
    return set(re.split(r'[\s(){}\[\].;,«»]+', ' '.join(lines)))


def named_by(text, laws):
    """The files of specs/ that the statements of these laws name."""
    said = statements(text)
    used = words([line for law in laws if law in said for line in said[law]])
    return {place for name, place in imports(text) if any(part in used for part in name.split('◌') if part)}


def closed(places):
    """With what these files import in turn."""
    seen, left = set(), list(places)
    while left:
        place = left.pop()
        if place not in seen:
            seen.add(place)
            left += [further for _, further in imports(edits.read(path_of(place[0], 'specs', place[1])))]
    return seen


def judged():
    """The theorem files by crate, what their statements stand on, and the laws that stand nowhere."""
    theorems, stands, missing = {}, {}, []
    for laws, files in rows():
        texts = {place: edits.read(path_of(place[0], 'proofs', place[1])) for place in files}
        for law in laws:
            if not any(law in statements(text) for text in texts.values()):
                missing.append('%s in %s' % (law, ', '.join('/'.join(place) for place in files)))
        for place, text in texts.items():
            theorems.setdefault(place[0], set()).add(place[1])
            stands.setdefault(place[0], set()).update(named_by(text, laws))
    return theorems, {crate: closed(places) for crate, places in stands.items()}, missing


def counted(crate, folder, modules):
    return ', '.join('%s %d' % (module, edits.read(path_of(crate, folder, module)).count('\n')) for module in sorted(modules))


def table(theorems, stands):
    """A crate a row, in the order of crates.txt; a file of specs/ stands in the row of its own crate."""
    believed = set().union(*stands.values())
    lines = []
    for crate in edits.listed():
        specs = {module for owner, module in believed if owner == crate}
        if crate in theorems or specs:
            lines.append('| `%s` | %s | %s |\n' % (crate, counted(crate, 'proofs', theorems.get(crate, ())), counted(crate, 'specs', specs)))
    return HEAD + ''.join(lines)


def main(given):
    theorems, stands, missing = judged()
    page = edits.read(READING)
    if page.count(HEAD) != 1:
        sys.exit('reading: docs/READING.md has no table of what to read')
    start = page.index(HEAD)
    made = page[:start] + table(theorems, stands) + page[page.index('\n\n', start) + 1:]
    if given == ['--check']:
        if made != page:
            missing.append('docs/READING.md: the table of what to read is another')
        sys.exit('\n'.join('reading: ' + fault for fault in missing) or 0)
    with open(READING, 'w', encoding='utf-8', newline='') as file:
        file.write(made)


if __name__ == '__main__':
    main(sys.argv[1:])
