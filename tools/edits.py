"""The wrong answers: edits that make a public function answer wrongly, by the function. wrong/CRATE.edits has those of a crate:

    # wire::nth                       a section for each function
    edit: nth_is_the_first            an edit of it, by name
    why: ..                           what it does, where its lines do not say that
    for: wire::step_at wire::next     other functions that answer wrongly by it
    file: src/list.rt                 what it changes, in a file of the crate: one text, which stands there once, by another
    old: the text, as it stands       lines that follow each other are one text of so many lines
    new: the text instead of it
    gate: first_value_only            an edit that the gate tries: its lines stand in crates/CRATE/must-fail, in the kit's form

An edit may change several places, of one file or of several.
"""
import collections
import os
import re

ROOT = os.path.dirname(os.path.dirname(os.path.realpath(__file__)))
FOLDER = os.path.join(ROOT, 'wrong')

# `functions` are those that answer wrongly by it, the section's own first; `changes` are triples of file, old and new text.
Edit = collections.namedtuple('Edit', 'crate label is_gate functions changes')


class BadEdit(Exception):
    pass


def read(path):
    with open(path, encoding='utf-8', newline='') as file:
        return file.read()


def listed():
    """The crates of crates.txt by what each needs, in the order of the file. A line is `NAME: NEEDS`, or `NAME staticlib: NEEDS`."""
    lines = [line.split('#')[0].partition(':') for line in read(os.path.join(ROOT, 'crates.txt')).splitlines()]
    return {head.split()[0]: needs.split() for head, _, needs in lines if head.strip()}


def crates():
    """The crates that have a file of edits."""
    return sorted(name[:-len('.edits')] for name in os.listdir(FOLDER) if name.endswith('.edits'))


def keyed(text):
    """The lines as pairs of key and value; a heading's key is #."""
    for line in text.splitlines():
        if line.startswith('# '):
            yield '#', line[2:].strip()
        elif line:
            key, colon, value = line.partition(':')
            if not colon:
                raise BadEdit('a line that is none of an edit: ' + line)
            yield key, value[1:] if value.startswith(' ') else value


def changes(pairs):
    """The triples of file, old and new text of an edit's lines. Lines of one key that follow each other are one text."""
    made, file, before = [], '', ''
    for key, value in pairs:
        if key == 'file':
            file = value
        elif key == 'old' and before == 'old':
            made[-1][1] += '\n' + value
        elif key == 'old':
            made.append([file, value, None])
        elif key == 'new' and before == 'new':
            made[-1][2] += '\n' + value
        elif key == 'new' and before == 'old':
            made[-1][2] = value
        else:
            raise BadEdit('a line out of its place: %s: %s' % (key, value))
        before = key
    if before == 'old':
        raise BadEdit('nothing stands instead of ' + made[-1][1])
    return [tuple(change) for change in made]


def of_gate(crate, label):
    """The changes of an edit that the gate tries. There any other line is a comment."""
    path = os.path.join(ROOT, 'crates', crate, 'must-fail', label + '.edit')
    if not os.path.isfile(path):
        raise BadEdit('the gate has no edit %s/%s' % (crate, label))
    return changes(keyed(re.sub(r'(?m)^(?!file:|old:|new:).*$', '', read(path))))


def of_crate(crate):
    """The edits of wrong/CRATE.edits, those that the gate tries too, in the order of the file."""
    found, function = [], ''
    if crate not in crates():
        return found
    for key, value in keyed(read(os.path.join(FOLDER, crate + '.edits'))):
        if key == '#':
            function = value
        elif key in ('edit', 'gate'):
            lines = []
            found.append(Edit(crate, value, key == 'gate', [function], lines))
        elif key == 'for':
            found[-1].functions.extend(value.split())
        elif key != 'why':
            lines.append((key, value))
    return [edit._replace(changes=of_gate(crate, edit.label) if edit.is_gate else changes(edit.changes)) for edit in found]


def applied(edit, folder):
    """The files that the edit changes in a crate's folder, as it leaves them."""
    files = {}
    for file, old, new in edit.changes:
        path = os.path.join(folder, file)
        if path not in files and not os.path.isfile(path):
            raise BadEdit('there is no file ' + file)
        text = files.get(path) or read(path)
        if not old or text.count(old) != 1:
            raise BadEdit('%s stands %d times in %s' % (old or 'nothing', text.count(old), file))
        files[path] = text.replace(old, new)
    if not files:
        raise BadEdit('it replaces nothing')
    return files
