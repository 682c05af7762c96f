"""The last column of docs/PROMISES.md, made from the edits of wrong/ (tools/edits.py).

    python3 -m tools.promises            writes the column
    python3 -m tools.promises --check    writes nothing, and fails where it is another; where a public function has no `ensures`, in a library or a
                                         program; where one of a library has no row, or a row no function; where an edit stands in no row or an
                                         edit of the gate in no section; where what an edit is to change does not stand in its file exactly once.
                                         Tells which rows have fewer than two edits.
"""
import collections
import os
import re
import sys

from tools import edits

PAGE = os.path.join(edits.ROOT, 'docs', 'PROMISES.md')
FEW = 2


def crates():
    """All crates, in the order of crates.txt."""
    return list(edits.listed())


def libraries():
    """Those that are no programs."""
    return [name for name in crates() if os.path.exists(os.path.join(edits.ROOT, 'crates', name, 'src', 'lib.rt'))]


def heads(crate):
    """The crate's public functions, a method by its type: wire::Cursor::u8; and of each the lines up to its body."""
    folder = os.path.join(edits.ROOT, 'crates', crate, 'src')
    for file in sorted(os.listdir(folder)):
        owner, lines = '', edits.read(os.path.join(folder, file)).splitlines()
        for at, line in enumerate(lines):
            begins = re.match(r'impl (\w+)', line)
            if begins:
                owner = begins.group(1) + '::'
            elif line.startswith('}'):
                owner = ''
            named = re.match(r'\s*pub (?:extern "C" )?fn (\w+)', line)
            if named:
                end = next(i for i in range(at, len(lines)) if lines[i].endswith('{'))
                yield '%s::%s%s' % (crate, owner, named.group(1)), lines[at:end + 1]


def functions(crate):
    return (name for name, _ in heads(crate))


def silent():
    """The public functions that promise nothing, of programs too."""
    for crate in crates():
        yield from (name for name, head in heads(crate) if not any(re.match(r'\s*ensures\b', line) for line in head))


def function_of(line):
    """The function whose row a line of the page is, if it is one."""
    row = re.match(r'\| `(\w+::[\w:]+)` \|(?:[^|]*\|){4}$', line)
    return row and row.group(1)


def with_column(page, tried):
    """The page, each row's last column made anew from the edits by function."""
    lines = []
    for line in page.splitlines(keepends=True):
        function = function_of(line.rstrip('\n'))
        if function:
            kept = line.rstrip('\n').rsplit('|', 2)[0]
            line = '%s| %s |\n' % (kept, ', '.join('`%s`' % edit for edit in tried[function]))
        lines.append(line)
    return ''.join(lines)


def gate_labels(crate):
    folder = os.path.join(edits.ROOT, 'crates', crate, 'must-fail')
    return sorted(name[:-len('.edit')] for name in os.listdir(folder)) if os.path.isdir(folder) else []


def faults_of(crate, found):
    """What is wrong with a crate's edits by themselves."""
    labels = [edit.label for edit in found]
    for label in gate_labels(crate):
        if label not in labels:
            yield 'an edit of the gate that no section names: %s/%s' % (crate, label)
    for edit in found:
        name = '%s/%s' % (crate, edit.label)
        if labels.count(edit.label) > 1 or (not edit.is_gate and edit.label in gate_labels(crate)):
            yield 'two edits of one name: ' + name
        try:
            edits.applied(edit, os.path.join(edits.ROOT, 'crates', crate))
        except edits.BadEdit as fault:
            yield '%s: %s' % (name, fault)


def edits_by_function(public):
    """The names of each function's edits, and what is wrong with edits. Those of a crate without public functions, as `examples`, try what no row
    tells of."""
    tried, faults = collections.defaultdict(list), []
    for crate in libraries():
        if not any(name.startswith(crate + '::') for name in public):
            gate = [edits.Edit(crate, label, True, [], edits.of_gate(crate, label)) for label in gate_labels(crate)]
            faults += faults_of(crate, gate)
        else:
            found = edits.of_crate(crate)
            faults += faults_of(crate, found)
            for edit in found:
                for function in dict.fromkeys(edit.functions):
                    tried[function].append('%s/%s' % (crate, edit.label))
    return tried, faults


def faults_of_rows(rows, public, tried):
    yield from ('no row in docs/PROMISES.md: ' + name for name in sorted(public - set(rows)))
    yield from ('a row without a function: ' + name for name in sorted(set(rows) - public))
    yield from ('two rows of one function: ' + name for name in sorted(set(rows)) if rows.count(name) > 1)
    for name in sorted(set(tried) - set(rows)):
        yield 'edits of what has no row, %s: %s' % (name, ' '.join(tried[name]))


def main(words):
    if words not in ([], ['--check']):
        sys.exit(__doc__)
    page = edits.read(PAGE)
    public = {name for crate in libraries() for name in functions(crate)}
    rows = [function for function in map(function_of, page.splitlines()) if function]
    try:
        tried, faults = edits_by_function(public)
    except edits.BadEdit as fault:
        sys.exit('promises: %s' % fault)
    faults += ['no `ensures`: ' + name for name in silent()]
    faults += faults_of_rows(rows, public, tried)
    made = with_column(page, tried)
    if words and made != page:
        faults.append('the last column of docs/PROMISES.md is not what wrong/ has: python3 -m tools.promises writes it')
    elif made != page:
        with open(PAGE, 'w', encoding='utf-8', newline='') as file:
            file.write(made)
    few = [function for function in rows if len(tried[function]) < FEW]
    if few:
        print('promises: fewer than two wrong answers: ' + ' '.join(few))
    count = len({edit for names in tried.values() for edit in names})
    print('\n'.join(faults) if faults else 'promises: %d functions, a row each, and %d wrong answers' % (len(public), count))
    return 1 if faults else 0


if __name__ == '__main__':
    sys.exit(main(sys.argv[1:]))
