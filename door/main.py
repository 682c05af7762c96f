"""The operator's door: a command by its first word."""

from door import signals, standard
from door.failure import Failure, Misuse, named


def run_list(words):
    from door import listing
    return listing.run(words)


def run_ask(words):
    from door import listing
    return listing.ask(words)


def run_copy(words):
    from door import copying
    return copying.run(words)


def run_mend(words):
    from door import mending
    return mending.run(words)


def run_settings(words):
    from door import settings
    return settings.run(words)


def run_packets(words):
    from door import packets
    return packets.run(words)


def run_folders(words):
    from door import folders
    return folders.run(words)


def run_show(words):
    from door import show
    return show.run(words)


def run_page(words):
    from door import page
    return page.run(words)


def run_help(words):
    from door import help
    if words:
        raise Misuse(f"help does not take {named(words[0])}")
    return help.show()


COMMANDS = {"list": run_list, "copy": run_copy, "mend": run_mend, "settings": run_settings, "packets": run_packets, "folders": run_folders,
            "show": run_show, "page": run_page, "ask": run_ask, "help": run_help}
HELP = ("-h", "--help")


def command(words):
    if not words:
        raise Misuse("no command is given; ptp help tells of all")
    name, *rest = words
    if name in HELP:
        name = "help"
    if name not in COMMANDS:
        raise Misuse(f"there is no command {named(name)}; ptp help tells of all")
    if rest and rest[0] in HELP:
        name, rest = "help", []
    return COMMANDS[name](rest)


def main(words):
    standard.note_closed()
    try:
        signals.listen()
        return command(words)
    except Failure as failure:
        return told(failure, failure.status)
    except OSError as error:
        return told(f"{named(str(error.filename))}: {error.strerror}" if error.filename else error.strerror, 1)
    finally:
        signals.ignore()


def told(sentence, status):
    signals.ignore()
    if str(sentence):
        try:
            standard.write_all(standard.ERROR, f"ptp: {sentence}\n".encode("utf-8", "backslashreplace"))
        except Failure:  # there is nowhere left to say it; the status does
            pass
    return status
