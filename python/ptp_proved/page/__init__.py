"""A recording as one page for a browser, which needs no server and no network."""

from ptp_proved.page.build import MOST_ENTRIES, TooLong, page_of
from ptp_proved.page.report import Dropped, WrongReport, read_report

__all__ = ["Dropped", "MOST_ENTRIES", "TooLong", "WrongReport", "page_of", "read_report"]
