"""Tries the wrong answers of wrong/ (tools/edits.py has their form), those of the crates or single edits that are named, else all.

    ./ptp wrong [CRATE | CRATE/EDIT ..]

An edit is tried by `rt check` in a copy of the crates outside the repository, since rt ci takes no file of a crate elsewhere in it. What a check kept
makes the next one quick. An edit is refused where the prover says that some fact does not hold. It shows nothing, and counts as not refused, where the
compiler refuses the source, where the prover cannot read the edited text, or where a proof names what the code no longer has. But Rattle names goals and
steps by the words of a condition, so an edit of a condition renames them: there the proofs are led along, by the names that the prover says are nearest.
Each log is kept as target/wrong/log/CRATE/EDIT.
"""
import os
import re
import shutil
import subprocess
import sys
import tempfile
import time

from tools import edits
from tools.edits import ROOT, BadEdit, read

LOGS = os.path.join(ROOT, 'target', 'wrong', 'log')

# What the prover says of a fact where its proof names what the code no longer has; and, of a proof that walks the code step by step, where the code
# takes other steps.
MISSING = re.compile(r'that can be named from here|is not in scope|has no field')
OTHER_STEPS = re.compile(r'first differ where one has `mir\.|\(types\.Kit\.allocs`')
# The first, of a goal or a step whose name follows the condition's words, with the file, the name that is cited and the one that stands there.
RENAMED = re.compile(r'^(?:\./)?(proofs/\S+):\d+:\d+: error: .*(?:has no `([^`]+)` that can be named from here \(did you mean `|has no field `([^`]+)` \(nearest: \.)([^`) ,]+)', re.MULTILINE)
ROUNDS = 6
# What it says where it cannot read a text at all: there it names no fact.
UNREAD = re.compile(r'^(?:\./)?((?:src|specs|proofs)/\S+:\d+:\d+): error: (?!`|\d+ declaration)(.*)', re.MULTILINE)
# A fact that is not proved, with its place and name, but for what merely rests on another that was refused; and a function without a proof file.
FACT = re.compile(r'^(?:note: )?(?:\./)?(\S+:\d+:\d+): (?:error: `([^`]+)`(?!: `[^`]+` was not admitted)|it is not proved .*\(`([^`]+)`\))(.*)', re.MULTILINE)
# A limit of the prover's own.
LIMIT = re.compile(r'antt ran out of|outgrew the memory limit|stopped at the step limit')


def write(path, text):
    os.makedirs(os.path.dirname(path), exist_ok=True)
    with open(path, 'w', encoding='utf-8', newline='') as file:
        file.write(text)


def fail(sentence):
    """There is nothing to try: status 2, as ./ptp has it."""
    print('wrong: ' + sentence, file=sys.stderr)
    sys.exit(2)


def chosen(words):
    """The edits to try, by their crate. One that the gate tries is tried here where it is named."""
    plan = {}
    for word in words or edits.crates():
        crate, _, label = word.partition('/')
        if crate not in edits.crates():
            fail('there is no file wrong/%s.edits' % crate)
        named = [edit for edit in edits.of_crate(crate) if label == edit.label or not (label or edit.is_gate)]
        if label and not named:
            fail('wrong/%s.edits has no edit %s' % (crate, label))
        plan.setdefault(crate, []).extend(named)
    return plan


def copied(folder):
    """The copy that is edited: what was made is left out."""
    def made(at, names):
        return [name for name in names if name == 'out' and os.path.dirname(at) == os.path.join(ROOT, 'crates')]
    shutil.copytree(os.path.join(ROOT, 'crates'), os.path.join(folder, 'crates'), ignore=made)
    shutil.copy(os.path.join(ROOT, 'crates.txt'), folder)


def check(crate, folder):
    """The exit status of a check in the copy, and what was said, with paths as they are from the crate's folder on."""
    own = os.path.join(folder, 'crates', crate)
    run = subprocess.run(['rt', 'check'], cwd=own, stdin=subprocess.DEVNULL, stdout=subprocess.PIPE, stderr=subprocess.STDOUT, text=True, errors='replace')
    return run.returncode, run.stdout.replace(own + '/', '')


def facts(log):
    """The facts that are not proved, each with its place and name, but for those whose proof names what is not there. There are none where the
    compiler refused the source, before any proof."""
    return [(place, name or goal) for place, name, goal, said in FACT.findall(log) if not MISSING.search(said)]


def verdict(status, log):
    """Whether the edit is refused, and what to say of it: the place of the first fact that is not proved, and the names of all."""
    if status == 0:
        return False, 'NOT REFUSED: the crate is still proved'
    unread, found = UNREAD.search(log), facts(log)
    if unread:
        return False, 'BAD EDIT: %s: %s' % unread.groups()
    if OTHER_STEPS.search(log) or (not found and MISSING.search(log)):
        return False, 'UNFIT: a proof names or walks what the code no longer has'
    if status == 1 and found and re.search('^logic=not-proved', log, re.MULTILINE):
        return True, 'refused at %s: %s' % (found[0][0], ', '.join(dict.fromkeys(name for _, name in found)))
    if status == 3 and LIMIT.search(log):
        return True, 'refused by a limit of the prover, which gave no verdict'
    said = [line for line in log.splitlines() if 'error' in line]
    return False, 'BAD EDIT: ' + (said[0] if said else 'exit %d, and no fact is named' % status)


def alike(one, other):
    """Whether two names may be of one goal or step: they begin alike, and the words of a condition follow."""
    begins = r'(Need-|if-|loop-|then-|else-|[\w-]*?-(then|else)-)'
    one, other = re.match(begins, one), re.match(begins, other)
    return one is not None and other is not None and one.group() == other.group()


def led_along(log, folder, crate):
    """The files of proofs with the names that stand there, in place of those that are cited and do not: by path. None where nothing can be led."""
    made = {}
    for file, goal, step, stands in RENAMED.findall(log):
        path, cited = os.path.join(folder, 'crates', crate, file), goal or step
        if alike(cited, stands):
            made[path] = re.sub(r'(?<![\w-])%s(?![\w-])' % re.escape(cited), lambda _: stands, made.get(path) or read(path))
    return made


def attempt(edit, folder):
    try:
        files = edits.applied(edit, os.path.join(folder, 'crates', edit.crate))
    except BadEdit as fault:
        return False, 'BAD EDIT: %s' % fault
    before = {path: read(path) for path in files}
    try:
        for _ in range(ROUNDS):
            for path, text in files.items():
                write(path, text)
            status, log = check(edit.crate, folder)
            files = led_along(log, folder, edit.crate)
            before = {**{path: read(path) for path in files}, **before}
            if not files:
                break
    finally:
        for path, text in before.items():
            write(path, text)
    write(os.path.join(LOGS, edit.crate, edit.label), log)
    return verdict(status, log)


def try_crate(crate, chosen_edits, folder):
    """For each edit, whether it is refused."""
    status, log = check(crate, folder)
    if status:
        sys.exit('%swrong: %s is not proved as it stands' % (log, crate))
    for edit in chosen_edits:
        began = time.monotonic()
        refused, said = attempt(edit, folder)
        print('%s/%s: %.1f s, %s' % (crate, edit.label, time.monotonic() - began, said), flush=True)
        yield refused


def main(words):
    try:
        plan = chosen(words)
    except BadEdit as fault:
        fail(str(fault))
    if not shutil.which('rt'):
        fail('the Rattle kit is missing: no rt on the path')
    with tempfile.TemporaryDirectory(prefix='ptp-wrong-') as folder:
        copied(folder)
        results = [refused for crate, named in plan.items() for refused in try_crate(crate, named, folder)]
    print('%d refused, %d not' % (results.count(True), results.count(False)))
    return 0 if all(results) else 1


if __name__ == '__main__':
    sys.exit(main(sys.argv[1:]))
