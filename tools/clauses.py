"""The map of the papers, docs/CLAUSES.md: a row for each sentence of documents 01 and 02.

    python3 -m tools.clauses [PAPERS]           writes the papers' sentences into the map; what stands beside a sentence stays
    python3 -m tools.clauses --check [PAPERS]   writes nothing, and fails where a name in the map does not exist, where a public function of a
                                                library has no row, where a row says nothing, or where a sentence is missing;
                                                or where docs/WORDS.md names what does not exist

PAPERS is the folder of the papers, by default ../shared/docs; where it is not there, the sentences are not compared, and that is said.

A name stands in backquotes. What it may be:
    wire::nth               a public function
    wire/Layout.shape       a definition or a law: CRATE/MODULE.NAME, its module below the crate's specs/, proofs/ or proofs/laws/
    wire/exact_bytes_refused    an edit that the prover must refuse
    compare/run.py          a file or a folder
    D12                     a difference, in docs/DIFFERENCES.md; decision 12 is one of docs/DECISIONS.md
"""
import collections
import os
import re
import sys

from tools import edits, promises

PAGE = os.path.join(edits.ROOT, 'docs', 'CLAUSES.md')
WORDS = os.path.join(edits.ROOT, 'docs', 'WORDS.md')
PAPERS = os.path.join(edits.ROOT, '..', 'shared', 'docs')
FILES = {'01': '01-scope.md', '02': '02-change-requests.md'}
# The sections of document 01 by their headings or first bold words.
SECTIONS = {'Refusal numbers': 'refusals', 'Modules, leaves first': 'modules', 'Names': 'names', 'Values': 'values', 'Datasets': 'datasets',
            'Containers': 'containers', 'Transactions': 'transactions', 'Camera calls': 'calls', 'Tree': 'tree', 'Recording': 'recording',
            'The listing, whole': 'listing', 'Numbered examples, all to be proved': 'examples', 'Slips that look right': 'slips',
            'Judging the promises': 'judging', 'Domain, and what must change shape': 'domain', 'Code places and their forms': 'forms'}
STOP = re.compile(r'(?<=[.])\s+(?=[`A-Z0-9(])')
TITLE = re.compile(r'^\d+\) \*\*[^*]*\*\* ')
ROW = re.compile(r'\| (\d\d/\w+/\d+) \| (.*) \| ([^|]*) \| ([^|]*) \| ([^|]*) \|$')


def sentences(text):
    """The sentences of a paragraph; what is cut inside a bracket is joined again."""
    found = []
    for part in STOP.split(text.strip()):
        if found and found[-1].count('(') != found[-1].count(')'):
            found[-1] += ' ' + part
        else:
            found.append(part)
    return found


def paragraphs(text):
    """The paragraphs of a paper with the section that each stands in; of a table and of a list each row is one."""
    section, held, fenced = 'head', [], False
    for line in text.splitlines() + ['']:
        if line.startswith('```'):
            fenced = not fenced
            held.append('')
        elif fenced:
            held.append('`%s`' % line)
        elif line.startswith('#') or not line.strip() or re.match(r'(- |\| )', line):
            if held:
                yield section, ' '.join(part for part in held if part)
            held = []
            if line.startswith('## '):
                section = SECTIONS[line[3:]]
            elif re.match(r'- |\| \d', line):
                yield section, line.lstrip('- ').strip('|').strip().replace(' | ', ': ')
        elif re.match(r'\|-', line) is None:
            held.append(line)


def section_of(paper, section, text):
    """A paragraph that opens with bold words opens a section of its own; a request is one by its number."""
    request = re.match(r'(\d+)\) \*\*', text)
    if paper == '02':
        return request.group(1) if request else section
    opens = re.match(r'\*\*([A-Z][\w ]*)\*\*', text)
    return SECTIONS.get(opens.group(1), section) if opens else section


def clauses(folder):
    """All sentences of both papers, as pairs of number and words."""
    found = []
    for paper, name in FILES.items():
        section, last = 'head', None
        counts = {}
        for heading, text in paragraphs(edits.read(os.path.join(folder, name))):
            if heading != last:
                section, last = heading, heading
            section = section_of(paper, section, text)
            for sentence in sentences(TITLE.sub('', text)):
                counts[section] = counts.get(section, 0) + 1
                found.append(('%s/%s/%d' % (paper, section, counts[section]), sentence))
    return found


def stands(crate, module, name):
    """Whether a definition or a law of the name stands in the module, below specs/, proofs/ or proofs/laws/."""
    begins = re.compile(r'^\s*(?:abbrev |unfoldable )?(?:pub )?(?:data |record |module )?%s(?: |$)' % re.escape(name), re.M)
    paths = [os.path.join(edits.ROOT, 'crates', crate, folder, module + '.antt') for folder in ('specs', 'proofs', 'proofs/laws')]
    return any(os.path.exists(path) and begins.search(edits.read(path)) for path in paths)


class Names:
    """What a name in the map may be."""

    def __init__(self):
        self.functions = {name for crate in promises.libraries() for name in promises.functions(crate)}
        self.edits = set(re.findall(r'`(\w+/\w+)`', edits.read(promises.PAGE)))
        docs = [edits.read(os.path.join(edits.ROOT, 'docs', name)) for name in ('DIFFERENCES.md', 'DECISIONS.md')]
        self.differences = set(re.findall(r'\bD\d+\b', docs[0]))
        self.decisions = set(re.findall(r'^(\d+)\. ', docs[1], re.M))

    def has(self, name):
        law = re.match(r'(\w+)/(\w+)\.([^./]+)$', name)
        return (name in self.functions or name in self.edits or name in self.differences
                or (name.startswith('decision ') and name[len('decision '):] in self.decisions)
                or (law is not None and stands(*law.groups())) or os.path.exists(os.path.join(edits.ROOT, name)))


def rows(page):
    """The rows of the map: number, sentence, definition, function, what shows it."""
    found = [ROW.match(line) for line in page.splitlines()]
    return [row.groups() for row in found if row]


def unnumbered(found):
    """The numbers that do not follow on: within a section sentences count from 1."""
    counts = collections.Counter()
    for number, *_ in found:
        section, _, last = number.rpartition('/')
        counts[section] += 1
        if counts[section] != int(last):
            yield number


def faults(page):
    """Names that do not exist, rows that say nothing, numbers left out, public functions without a row. The archive's calls have their own rows
    in docs/PROMISES.md, each beside the function that it calls."""
    names, said = Names(), set()
    for number, _, *columns in rows(page):
        told = re.findall(r'`([^`]+)`', ' '.join(columns))
        said.update(told)
        yield from ('%s: there is no %s' % (number, name) for name in told if not names.has(name))
        if not columns[-1].strip():
            yield '%s: nothing shows it' % number
    yield from ('%s: the number before it is missing' % number for number in unnumbered(rows(page)))
    yield from ('%s has no row' % name for name in sorted(names.functions - said) if not name.startswith('abi::'))
    defined = re.findall(r'`(\w+/[^`]+)` \|$', edits.read(WORDS), re.M)
    yield from ('docs/WORDS.md: there is no %s' % name for name in defined if not names.has(name))


def with_sentences(page, told):
    """The page, each paper's rows made anew from its sentences; the columns beside a sentence stay with its words, else with its number."""
    by_words = {words: columns for _, words, *columns in rows(page)}
    by_number = {number: columns for number, _, *columns in rows(page)}
    lines = []
    for number, words in told:
        columns = by_words.get(words) or by_number.get(number) or ['-', '-', '']
        lines.append('| %s | %s | %s |' % (number, words, ' | '.join(columns)))
    head = page.split('\n| 01/')[0]
    return head + '\n' + '\n'.join(lines) + '\n'


def main(words):
    check = '--check' in words
    folders = [word for word in words if word != '--check'] or [PAPERS]
    page = edits.read(PAGE)
    told = clauses(folders[0]) if os.path.isdir(folders[0]) else None
    if told is None:
        print('clauses: the papers are not at %s: their sentences are not compared' % os.path.relpath(folders[0], edits.ROOT))
    made = with_sentences(page, told) if told else page
    if not check:
        with open(PAGE, 'w', encoding='utf-8') as file:
            file.write(made)
    found = list(faults(made)) + (['docs/CLAUSES.md: its sentences are not the papers\''] if check and made != page else [])
    for fault in found:
        print('clauses: ' + fault, file=sys.stderr)
    print('clauses: %d sentences' % len(rows(made)))
    return 1 if found else 0


if __name__ == '__main__':
    sys.exit(main(sys.argv[1:]))
