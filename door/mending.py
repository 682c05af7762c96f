"""mend [IN OUT]"""

from door import output, report, standard
from door.program import words_of

CLOSING = "kept # records # bytes, dropped # stretches # bytes"


def refused(ending):
    """What was no recording at all is not mended to nothing: who removes IN after that would lose it."""
    if ending.startswith(b"kept 0 ") and b", dropped 0 " not in ending:
        return "nothing could be kept, and nothing was written"
    return None


def run(words):
    if words:
        return report.from_file_to_file("mend", words, CLOSING, refused)
    given, out = standard.opened(standard.INPUT), output.standard_output()
    standard.refuse_same(given, out.file)
    program = words_of("mend")
    with out:
        report.made_by(program, given, out, CLOSING, refused)
    return 0
