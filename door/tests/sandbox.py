"""A copy of the door in a folder of its own, with programs and a kit that only seem to be there: what the door does is seen without a proof."""

import os
import pathlib
import select
import shutil
import stat
import subprocess
import tempfile

ROOT = pathlib.Path(__file__).resolve().parent.parent.parent
CRATES = "layout:\nwire: layout\ntree: wire layout\nlist: wire layout io\ncopy: wire layout io\nmend: wire layout io\nask: tree io\nabi staticlib: wire\n"

# An rt that takes SLOW seconds for each crate that has no stamp, and makes the program or the archive of the crate in whose folder it is called.
RT = """#!/bin/sh
own=${PWD##*/}
for crate in layout wire "$own"; do
    if [ -e "../$crate/out/stamp" ]; then continue; fi
    mkdir -p "../$crate/out"
    echo "rt: chose --jobs 2 for $crate"
    echo "many words of the prover on $crate"
    if [ "$RT_REFUSES" = "$crate" ]; then exit 1; fi
    sleep "${SLOW:-0}"
    touch "../$crate/out/stamp"
done
case $1 in
run) cp ../../the-program "out/$own" ;;
lib) cp ../../the-archive "out/lib$own.a" ;;
esac
"""
COMPILER = '#!/bin/sh\necho "compiled: $1 $2 $3"\ncp the-archive "$2"\n'
EMULATOR = '#!/bin/sh\nshift 3\necho "emulated: $1"\nexec "$@"\n'
# What stands on the path besides the kit.
TOOLS = (
    "awk", "cat", "cp", "dirname", "env", "find", "grep", "head", "install", "ln", "mkdir", "printf", "readlink", "realpath", "rm", "sh", "sleep", "tee", "touch",
)


def result(command, **words):
    """Status, standard output and standard error of a command that takes no longer than it may."""
    words.setdefault("stdin", subprocess.DEVNULL)
    if "input" in words:
        del words["stdin"]
    run = subprocess.run([str(word) for word in command], stdout=subprocess.PIPE, stderr=subprocess.PIPE, timeout=60, **words)
    return run.returncode, run.stdout.decode(), run.stderr.decode()


def device(path, minor):
    """A device of the machine's memory driver (3 null, 7 full) in a test's own folder: none of the machine's own is touched. None where it cannot be had."""
    try:
        os.mknod(path, 0o666 | stat.S_IFCHR, os.makedev(1, minor))
        os.close(os.open(path, os.O_WRONLY))
    except PermissionError:
        return None
    return path


def read_some(file, seconds=30):
    """What comes next, and nothing at the end of the file or where nothing comes for so long."""
    ready, _, _ = select.select([file], [], [], seconds)
    return os.read(file.fileno(), 1 << 16) if ready else b""


class Sandbox:
    """`program` is the text of the script that `list`, `copy`, `mend` and `ask` are; `machine` is what uname says."""

    def __init__(self, program, machine="x86_64"):
        self.folder = pathlib.Path(tempfile.mkdtemp())
        self.home = self.folder / "repository"
        for crate in ("layout", "wire", "tree", "list", "copy", "mend", "ask", "abi"):
            (self.home / "crates" / crate / "src").mkdir(parents=True)
            (self.home / "crates" / crate / "src" / "lib.rt").write_text("")
        (self.home / "crates.txt").write_text(CRATES)
        (self.home / "tools").mkdir()
        shutil.copy(ROOT / "ptp", self.home)
        shutil.copytree(ROOT / "door", self.home / "door", ignore=shutil.ignore_patterns("tests", "__pycache__"))
        self.machine = machine
        self.script(self.home / "the-program", program)
        self.script(self.home / "the-archive", program)
        self.script(self.home / "tools" / "native", COMPILER)
        self.tool("uname", f"#!/bin/sh\necho {machine}\n")
        for name in TOOLS:
            os.symlink(shutil.which(name), self.folder / "bin" / name)
        self.kit()

    def script(self, path, text):
        path.parent.mkdir(parents=True, exist_ok=True)
        path.write_text(text)
        path.chmod(0o755)

    def tool(self, name, text="#!/bin/sh\n"):
        self.script(self.folder / "bin" / name, text)

    def kit(self):
        (self.folder / "kit" / "toolchain").mkdir(parents=True)
        self.script(self.folder / "kit" / "bin" / "rt", RT)

    def emulator(self):
        self.tool("qemu-x86_64", EMULATOR)

    def built(self, *names):
        """As a run before this one leaves it."""
        for name in names:
            self.script(self.home / "crates" / name / "out" / name, (self.home / "the-program").read_text())
        return self

    def run(self, *words, kit=True, **more):
        path = f"{self.folder / 'bin'}" + (f":{self.folder / 'kit' / 'bin'}" if kit else "")
        environment = {"PATH": path, **more.pop("env", {})}
        return result([self.home / "ptp", *words], env=environment, cwd=more.pop("cwd", self.folder), **more)

    def remove(self):
        shutil.rmtree(self.folder)
