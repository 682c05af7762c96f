"""Fails where a crate cites a law of another that does not stand in that crate's interface, its proofs/laws/.

Files of laws begin with a capital. What a walk by hand names, the functions that it calls and the structs that it takes apart, does not. The kit's
laws are its own matter.
"""
import glob
import os
import re
import sys

from tools import edits
from tools.edits import ROOT

CITED = re.compile(r'Rattle\.(\w+)\.proofs\.([A-Z]\w*)')


def faults():
    for own in edits.listed():
        others = set(edits.listed()) - {own}
        for path in sorted(path for part in ('src', 'specs', 'proofs') for path in glob.glob(os.path.join(ROOT, 'crates', own, part, '**', '*.*t*'), recursive=True)):
            for crate, law in sorted(set(CITED.findall(edits.read(path)))):
                if crate in others:
                    yield '%s cites %s/proofs/%s, which is not in its laws/' % (os.path.relpath(path, ROOT), crate, law)


def main():
    found = list(faults())
    print('\n'.join(found) if found else 'interface: crates cite only the laws that stand in proofs/laws/')
    return 1 if found else 0


if __name__ == '__main__':
    sys.exit(main())
