"""The page: its data, and where Chromium is what a reader sees and does."""

import base64
import hashlib
import io
import json
import os
import pathlib
import re
import tempfile
import unittest

from ptp_proved import PropLayout, mend_recording
from ptp_proved.page import WrongReport, page_of, read_report
from tests.browser import Browser, is_there
from tests.days import HOSTILE, hostile_day, long_day, panel_day

ROOT = pathlib.Path(__file__).resolve().parent.parent.parent
EXAMPLES = ROOT / "examples"
DAY = (EXAMPLES / "day.recording").read_bytes()


def page(data, layout=PropLayout.Crate, report=None, name="day.recording"):
    return "".join(page_of(io.BytesIO(data).read, name, layout, read_report(report) if report else None))


def data_of(text):
    return json.loads(re.search(r'<script type="application/json" id="data">(.*?)</script>', text, re.S)[1])


class Data(unittest.TestCase):
    def test_nothing_is_loaded_and_nothing_else_runs(self):
        text = page(DAY)
        policy = re.search(r'Content-Security-Policy" content="(.*?)"', text)[1].replace("&#x27;", "'")
        self.assertTrue(policy.startswith("default-src 'none'; "))
        for tag in ("style", "script"):
            part = re.findall(rf"<{tag}>(.*?)</{tag}>", text, re.S)
            self.assertEqual(len(part), 1)
            self.assertIn(base64.b64encode(hashlib.sha256(part[0].encode()).digest()).decode(), policy)
        self.assertEqual(re.findall(r"(?:src|href)=|https?:", text), [])

    def test_hostile_text_stays_in_the_data(self):
        text = page(hostile_day(), name=HOSTILE)
        self.assertEqual(text.count("<script"), 2)
        self.assertNotIn("<img", text)
        self.assertIn(HOSTILE, [one["w"] for one in data_of(text)["objects"]["v"]])

    def test_every_entry_stands_in_it(self):
        rows = data_of(page(DAY))["rows"]
        self.assertEqual([row["p"] for row in rows], sorted(row["p"] for row in rows))
        self.assertEqual(len(rows), 18)

    def test_values_that_were_not_allowed(self):
        times = data_of(page(panel_day()))["properties"][0]["h"]
        self.assertEqual([(doing, text, is_outside) for _, doing, text, _, is_outside in times],
                         [("described", "40 (1/250 s)", False), ("set", "80 (1/125 s)", False), ("set", "33 (0.0033 s)", True), ("set", "40 (1/250 s)", False)])

    def test_folders_and_what_was_deleted(self):
        view = data_of(page(panel_day()))["objects"]["v"]
        self.assertEqual([(one["w"], one["d"], one["x"] is not None) for one in view],
                         [("LATE", 0, True), ("A.JPG", 1, True), ("B.JPG", 1, True), ("ROOT.JPG", 0, False), ("AGAIN.JPG", 0, False)])

    def test_dropped_stretches_stand_at_their_places(self):
        damaged, report = (EXAMPLES / "damaged-day.recording").read_bytes(), (EXAMPLES / "damaged-day.report").read_text()
        mended = mend_recording(damaged)
        rows = data_of(page(mended.bytes, report=report))["rows"]
        found = [(at, row) for at, row in enumerate(rows) if row["k"] == "dropped"]
        self.assertEqual(len(found), len(mended.dropped))
        gone = 0
        for (at, row), (start, length) in zip(found, mended.dropped):
            self.assertEqual(row["p"], start - gone)
            self.assertTrue(at == 0 or rows[at - 1]["p"] < row["p"])
            gone += length

    def test_a_wrong_report_is_refused(self):
        for text in ("", "kept 1 records", "0 dropped 5\n", "x dropped 5\nkept 0 records 0 bytes, dropped 1 stretches 5 bytes\n",
                     "0 dropped 5\nkept 0 records 0 bytes, dropped 2 stretches 5 bytes\n"):
            self.assertRaises(WrongReport, read_report, text)

    def test_malformed_recordings(self):
        for place in range(0, len(DAY), 7):
            changed = bytearray(DAY)
            changed[place] ^= 0xFF
            for layout in (None, PropLayout.Crate, PropLayout.Book):
                data_of(page(DAY[:place], layout))
                data_of(page(bytes(changed), layout))


@unittest.skipUnless(is_there(), "chromium or chromedriver is not installed")
class InChromium(unittest.TestCase):
    def opened(self, text, **words):
        folder = tempfile.TemporaryDirectory()
        self.addCleanup(folder.cleanup)
        path = os.path.join(folder.name, "page.html")
        with open(path, "w", encoding="utf-8") as file:
            file.write(text)
        browser = Browser(**words)
        self.addCleanup(browser.__exit__)
        browser.open(path)
        browser.until("return document.documentElement.dataset.ready")
        return browser

    def quiet(self, browser):
        self.assertEqual(browser.errors(), [])

    def search(self, browser, text, count):
        browser.run("document.getElementById('search').value = ''")
        browser.type("#search", text)
        browser.until("return document.getElementById('count').textContent === arguments[0]", count)

    def test_search_unfold_point_and_folders(self):
        browser = self.opened(page(DAY))
        self.assertEqual(browser.texts("#count"), ["18 entries"])
        for text, count in (("f0000002", "1 of 18 entries"), ("0x500d", "5 of 18 entries"), ("#8", "2 of 18 entries"), ("devicebusy", "1 of 18 entries"),
                            ("0x00000003", "2 of 18 entries"), ("1/125", "4 of 18 entries"), ("nothing like it", "0 of 18 entries")):
            self.search(browser, text, count)
        self.search(browser, "getobjectinfo f0000001", "1 of 18 entries")
        browser.click(".head")
        names = browser.texts(".entry.open .record:nth-child(2) th")
        self.assertEqual((names[0], names[-1]), ("Kind", "Keywords"))
        browser.point(".entry.open .record:nth-child(2) tr:nth-child(19)")
        marked = browser.texts(".entry.open .record:nth-child(2) .hex i.on")
        self.assertEqual(bytes.fromhex("".join(marked)), b"\x0d" + "F0000001.JPG".encode("utf-16-le") + b"\0\0")
        browser.point(".entry.open .record:nth-child(2) .hex i[data-byte='18']")
        self.assertEqual(browser.texts(".fields tr.on th"), ["StorageID"])
        browser.click("#tab-objects")
        self.assertEqual(browser.texts("#objects .name span"), ["REEL12", "F0000001.JPG", "F0000002.JPG"])
        browser.click("#objects tr:nth-child(3) .go")
        self.assertEqual(browser.texts(".entry.open .about"), ['ObjectHandle 0x00000003 · Filename "F0000002.JPG"'])
        self.quiet(browser)

    def test_filters_and_properties(self):
        browser = self.opened(page(panel_day()))
        browser.click(".chip")
        browser.until("return document.getElementById('count').textContent.startsWith('1 of')")
        self.assertEqual(browser.texts("#rows .badge"), ["InvalidDevicePropValue"])
        browser.click("#tab-properties")
        self.assertEqual(browser.texts(".outside .value"), ["33 (0.0033 s)"])
        browser.click(".outside .go")
        self.assertEqual(browser.texts(".entry.open .badge"), ["InvalidDevicePropValue"])
        browser.run("const one = document.getElementById('by-command'); one.value = 'DeleteObject'; one.dispatchEvent(new Event('change'))")
        self.assertEqual(browser.texts("#rows .word"), ["DeleteObject", "DeleteObject"])
        browser.click("#tab-objects")
        self.assertEqual(browser.texts("#objects .deleted .name span"), ["LATE", "A.JPG", "B.JPG"])
        self.quiet(browser)

    def test_by_keyboard_alone(self):
        browser = self.opened(page(DAY))
        browser.press("/", "r", "e", "e", "l")
        browser.until("return document.getElementById('count').textContent === '1 of 18 entries'")
        browser.press("down", "right", "tab")
        self.assertEqual(browser.texts(".fields tr.on th"), ["Kind"])
        self.assertEqual(len(browser.texts(".hex i.on")), 2)
        browser.press("/", "escape")
        browser.until("return document.getElementById('count').textContent === '18 entries'")
        browser.press("down", "down", "enter")
        self.assertEqual(browser.texts(".entry.open .word"), ["GetDeviceInfo"])
        browser.press("left")
        self.assertEqual(browser.texts(".entry.open"), [])
        browser.run("document.getElementById('tab-timeline').focus()")
        browser.press("right", "right")
        self.assertEqual(browser.run("return document.activeElement.id"), "tab-objects")
        self.quiet(browser)

    def test_hostile_text_is_text(self):
        browser = self.opened(page(hostile_day(), name=HOSTILE))
        browser.run("document.querySelectorAll('.head').forEach((one) => one.click())")
        browser.click("#tab-objects")
        browser.click("#tab-properties")
        self.assertEqual(browser.run("return [window.ran, document.images.length, document.title]"), [None, 0, HOSTILE + " – a day on the camera link"])
        self.assertIn(HOSTILE, browser.texts("#objects .name span"))
        self.assertEqual(browser.texts("h1"), [HOSTILE])
        browser.run("const one = document.createElement('script'); one.textContent = 'window.ran = 1'; document.body.append(one)")
        self.assertIsNone(browser.run("return window.ran"))

    def test_widths_dark_and_print(self):
        for width, dark in ((1280, False), (400, True)):
            browser = self.opened(page(DAY), width=width, dark=dark)
            browser.run("document.querySelectorAll('.head')[1].click()")
            for view in ("timeline", "properties", "objects"):
                browser.click(f"#tab-{view}")
                self.assertLessEqual(browser.run("return document.documentElement.scrollWidth"), width, view)
            shade = browser.run("return getComputedStyle(document.body).backgroundColor.match(/\\d+/)[0]")
            self.assertEqual(int(shade) < 128, dark)
            self.assertGreater(len(base64.b64decode(browser.command("Page.printToPDF")["data"])), 5000)
            self.quiet(browser)

    def test_a_long_day_can_be_used(self):
        browser = self.opened(page(long_day()))
        self.search(browser, "f0004001.jpg", "1 of 10,000 entries")
        self.search(browser, "setdevicepropvalue", "2,500 of 10,000 entries")
        browser.click("#tab-objects")
        self.assertEqual(browser.texts("#objects h2")[0].split(",")[0], "3")
        self.quiet(browser)


if __name__ == "__main__":
    unittest.main()
