"""The page that `ptp help` prints."""

from door import standard

PAGE = """\
ptp list [--check] [--follow] [FILE]    lists a recording, from the file or from standard input (no file, or -)
                                        --check: status 1 where a record is refused
                                        --follow: goes on with a file that is still being written, until it is interrupted
                                            ptp list examples/day.recording
ptp show [--layout crate|book] [--json] [FILE]
                                        shows a recording by transactions: the command and its answer by name, and each field of what came with it
                                        --layout: how the camera describes its properties, with an IsEnable byte (crate) or by the book; without it
                                        they are shown as bytes
                                        --json: one object a line, for other programs
                                        where a record is refused, that ends it and the status is 1
                                            ptp show --layout crate examples/day.recording
ptp page [--layout crate|book] [--report FILE] RECORDING OUT.html
                                        makes a page of a recording for a browser: timeline, properties and folders, in one file
                                        --report: what mend said of the recording; the stretches that it dropped stand in the timeline
                                            ptp page --layout crate examples/day.recording day.html
ptp copy IN OUT                         copies a recording without its notes, and says what was left out
                                        where a record is refused, OUT stays as it was and the status is 1
                                            ptp copy old.recording new.recording
ptp mend [IN OUT]                       mends a damaged recording, without files from standard input to standard output: every record that
                                        can still be read is kept, and each stretch that was dropped is told by place and length
                                        where nothing can be kept, OUT stays as it was and the status is 1
                                            ptp mend examples/damaged-day.recording whole.recording
ptp settings [FILE]                     shows a row of settings, from the file or from standard input (no file, or -)
                                        where the row is refused, only that is shown and the status is 1
                                            ptp settings examples/reel.settings
ptp settings FILE set VENDOR PROPERTY TYPE VALUE [SERIAL]
                                        stores a setting for any camera, or for the camera of a serial, in place of the one that was there
                                            ptp settings my.settings set 6 0x500d UINT32 80
ptp settings FILE remove VENDOR PROPERTY [SERIAL]
                                        removes a setting; where none is held that is said, and FILE stays as it was
                                            ptp settings my.settings remove 6 0x500d
ptp folders [FILE]                      shows the paths of an object table folder by folder, a line each, from the file or from standard input
                                        where the table is refused, only that is shown and the status is 1
                                            ptp folders examples/card.table
ptp packets [FILE]                      shows the packets of PTP/IP, a line each, from the file or from standard input (no file, or -)
                                        where one is refused, that ends it and the status is 1
                                            ptp packets examples/shutter.packets
ptp help                                this page

Status: 0 done; 1 something could not be read, written or kept, or was refused; 2 nothing was run: a word is not known, or a file is not there.
What failed is told in one sentence on standard error. OUT is replaced only by a whole file, and else stays as it was.
"""


def show():
    standard.write_all(standard.opened(standard.OUTPUT), PAGE.encode())
    return 0
