"""Makes the package's wheel with the standard library alone, so that pip needs no network. The shared library goes into it where it is built."""

import base64
import hashlib
import os
import pathlib
import re
import sysconfig
import zipfile

ROOT = pathlib.Path(__file__).resolve().parent.parent
PACKAGE = "ptp_proved"
LIBRARY = "libptp.so.0"
LEFT_OUT = {"__pycache__"}


def version():
    return re.search(r'^__version__ = "(.*)"$', (ROOT / PACKAGE / "__init__.py").read_text(encoding="utf-8"), re.M).group(1)


def library():
    """The one that PTP_LIBRARY names, or the repository's own; None where there is none: it is then looked for when the package is imported."""
    for path in (os.environ.get("PTP_LIBRARY"), ROOT.parent / "target" / "native" / LIBRARY):
        if path and pathlib.Path(path).is_file():
            return pathlib.Path(path)
    return None


def parts():
    """Each file of the wheel, by its name in it."""
    for path in sorted((ROOT / PACKAGE).rglob("*")):
        if path.is_file() and not LEFT_OUT & set(path.parts):
            yield path.relative_to(ROOT).as_posix(), path.read_bytes()
    if library():
        yield f"{PACKAGE}/{LIBRARY}", library().read_bytes()


def tag():
    return f"py3-none-{re.sub(r'[-.]', '_', sysconfig.get_platform())}" if library() else "py3-none-any"


def metadata():
    return f"Metadata-Version: 2.1\nName: ptp-proved\nVersion: {version()}\nSummary: The byte layer of the picture transfer protocol, over a proved library\nRequires-Python: >=3.9\n"


def notes():
    return f"Wheel-Version: 1.0\nGenerator: ptp_wheel\nRoot-Is-Purelib: {'false' if library() else 'true'}\nTag: {tag()}\n"


def row(name, data):
    digest = base64.urlsafe_b64encode(hashlib.sha256(data).digest()).rstrip(b"=").decode("ascii")
    return f"{name},sha256={digest},{len(data)}\n"


def build_wheel(folder, config_settings=None, metadata_directory=None):
    stem = f"{PACKAGE}-{version()}"
    info, name = f"{stem}.dist-info", f"{stem}-{tag()}.whl"
    files = [*parts(), (f"{info}/METADATA", metadata().encode()), (f"{info}/WHEEL", notes().encode())]
    record = "".join(row(*each) for each in files) + f"{info}/RECORD,,\n"
    with zipfile.ZipFile(pathlib.Path(folder) / name, "w", zipfile.ZIP_DEFLATED) as wheel:
        for each, data in [*files, (f"{info}/RECORD", record.encode())]:
            wheel.writestr(zipfile.ZipInfo(each, (2020, 1, 1, 0, 0, 0)), data)
    return name


def get_requires_for_build_wheel(config_settings=None):
    return []
