"""Makes the picture of the example's page that README shows: docs/page.png.

    PYTHONPATH=python:. python3 -m tests.picture"""

import io
import pathlib
import tempfile

from ptp_proved import PropLayout
from ptp_proved.page import page_of
from tests.browser import Browser

ROOT = pathlib.Path(__file__).resolve().parent.parent.parent
UNFOLDED, POINTED_AT = 6, 11


def main():
    data = (ROOT / "examples" / "day.recording").read_bytes()
    with tempfile.NamedTemporaryFile(suffix=".html") as file, Browser(width=1280, height=960) as browser:
        file.write("".join(page_of(io.BytesIO(data).read, "day.recording", PropLayout.Crate)).encode())
        file.flush()
        browser.open(file.name)
        browser.click(f".entry:nth-child({UNFOLDED}) .head")
        browser.point(f".entry.open .record:nth-child(2) tr:nth-child({POINTED_AT})")
        browser.run("window.scrollTo(0, 0)")
        browser.picture(ROOT / "docs" / "page.png")


if __name__ == "__main__":
    main()
