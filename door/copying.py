"""copy IN OUT"""

from door import report


def run(words):
    return report.from_file_to_file("copy", words, "left out # records # bytes")
