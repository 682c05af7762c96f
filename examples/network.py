"""Runs the camera and the controller of rust/examples/network over loopback, and judges what they leave.

    python3 -m examples.network PROGRAM

What the controller recorded is the example's day without its note and its Event, by the model, however the camera cuts its data. A day that is
cut ends both with 1 and a sentence. A packet that is too long ends the camera in the same way. Where tshark and text2pcap are, they read each
packet as the model does.
"""

import pathlib
import re
import shutil
import socket
import subprocess
import sys
import tempfile

from examples.judge import judged
from model import containers, network, recording

FOLDER = pathlib.Path(__file__).resolve().parent
DAY = (FOLDER / "day.recording").read_bytes()
CUTS = (None, 1, 7, 1000)
SECONDS = 60
LISTENING = re.compile(r"listening on (\S+)\n")
FIELDS = ("ptpip.len", "ptpip.pktType", "ptpip.phaseinfo", "ptpip.opcode", "ptpip.transactionID", "ptpip.datalen", "_ws.malformed")
# OpenSession without a parameter is marked, which is no fault of the packet; this day's has parameters.
PEERS = ("text2pcap", "tshark")


def run_both(program, day, folder, words=()):
    """How camera and controller ended, and what each said on standard error; the camera's last line of standard output."""
    (folder / "day").write_bytes(day)
    camera = subprocess.Popen([program, "camera", folder / "day", "127.0.0.1:0", *words], stdout=subprocess.PIPE, stderr=subprocess.PIPE, text=True)
    try:
        address = LISTENING.fullmatch(camera.stdout.readline()).group(1)
        command = [program, "controller", address, folder / "made", "--packets", folder / "packets"]
        controller = subprocess.run(command, stdout=subprocess.PIPE, stderr=subprocess.PIPE, text=True, timeout=SECONDS)
        told, said = camera.communicate(timeout=SECONDS)
    finally:
        camera.kill()
    return (camera.returncode, controller.returncode), (said, controller.stderr), told


def kept_records():
    """Those of the day that go over the network, and how many do not."""
    records = recording.read_recording(DAY)
    kept = [one for one in records if one.kind != recording.NOTE and containers.read_header(DAY, one.start).kind != containers.EVENT]
    return b"".join(DAY[one.start - recording.RECORD_HEADER:one.after] for one in kept), len(records) - len(kept)


def judge_day(program, cut, folder):
    made, left_out = kept_records()
    ended, said, told = run_both(program, DAY, folder, () if cut is None else ("--cut", str(cut)))
    if ended != (0, 0) or said != ("", ""):
        return f"cut {cut}: ended {ended}, {said}"
    if f"; {left_out} notes and Events were left out\n" not in told:
        return f"cut {cut}: the camera says {told}"
    if (folder / "made").read_bytes() != made:
        return f"cut {cut}: the recording is another"
    return judge_cut(packets_kept(folder), cut) or judge_peers(folder, cut)


def packets_kept(folder):
    """The packets that the controller kept, in their order."""
    frames = re.split(r"^[IO]\n", (folder / "packets").read_text(), flags=re.MULTILINE)[1:]
    return [bytes.fromhex("".join(line.split(" ", 1)[1] for line in frame.splitlines())) for frame in frames]


def judge_cut(packets, cut):
    """Data from the camera comes in data packets of so many bytes, and a last one that is not longer."""
    read = [network.read_packet(packet) for packet in packets]
    pieces = [one.after - one.start for one in read if one.kind == network.SOME_DATA]
    if cut is None:
        return f"data came in {len(pieces)} pieces" if pieces else None
    return None if set(pieces) <= {cut} and (pieces or cut == max(CUTS[1:])) else f"cut {cut}: pieces of {sorted(set(pieces))}"


def judge_peers(folder, cut):
    """One packet a frame, each with the model's fields and no malformed mark."""
    if any(shutil.which(peer) is None for peer in PEERS):
        return None
    subprocess.run(["text2pcap", "-q", "-D", "-T", "40000,15740", folder / "packets", folder / "pcap"], check=True, stderr=subprocess.DEVNULL, timeout=SECONDS)
    words = [word for field in FIELDS for word in ("-e", field)]
    command = ["tshark", "-r", folder / "pcap", "-d", "tcp.port==15740,ptpip", "-T", "fields", *words]
    shown = subprocess.run(command, check=True, stdout=subprocess.PIPE, stderr=subprocess.DEVNULL, text=True, timeout=SECONDS).stdout
    packets = packets_kept(folder)
    rows = [row.split("\t") for row in shown.splitlines()]
    if len(rows) != len(packets):
        return f"cut {cut}: tshark shows {len(rows)} packets of {len(packets)}"
    for packet, row in zip(packets, rows):
        if [word and str(int(word, 0)) for word in row] != fields_of(packet):
            return f"cut {cut}: tshark shows {row} of {packet.hex()}"
    return None


def fields_of(packet):
    """As tshark shows them, in decimals: nothing where the kind has none, and no malformed mark."""
    read = network.read_packet(packet)
    shown = [len(packet), read.kind, *(read.fields.get(name) for name in ("phase", "code", "number", "total"))]
    return ["" if number is None else str(number) for number in shown] + [""]


def judge_cut_day(program, place, folder):
    ended, said, _ = run_both(program, DAY[:place], folder)
    if ended != (1, 1) or any(sentence.count("\n") != 1 for sentence in said):
        return f"the day up to byte {place}: ended {ended}, {said}"
    return None


def judge_long(program, folder):
    """A packet of more than 16 MiB that a controller announces ends the camera; so does one that leaves in the handshake."""
    for sent in (((16 << 20) + 1).to_bytes(4, "little") + b"\x01\0\0\0", b"\x22\0\0\0"):
        (folder / "day").write_bytes(DAY)
        camera = subprocess.Popen([program, "camera", folder / "day", "127.0.0.1:0"], stdout=subprocess.PIPE, stderr=subprocess.PIPE, text=True)
        try:
            host, port = LISTENING.fullmatch(camera.stdout.readline()).group(1).split(":")
            with socket.create_connection((host, int(port)), SECONDS) as controller:
                controller.sendall(sent)
            _, said = camera.communicate(timeout=SECONDS)
        finally:
            camera.kill()
        if camera.returncode != 1 or said.count("\n") != 1:
            return f"{sent.hex()} in the handshake: the camera ended {camera.returncode}, {said}"
    return None


def cases(program, folder):
    for cut in CUTS:
        yield judge_day(program, cut, folder)
    records = recording.read_recording(DAY)
    for record in records[4:-1:5]:
        yield judge_cut_day(program, record.after, folder)
        yield judge_cut_day(program, record.after - 1, folder)
    yield judge_long(program, folder)


def main():
    for peer in PEERS:
        if shutil.which(peer) is None:
            print(f"network: the packets are not shown to {peer}, which is not there")
    with tempfile.TemporaryDirectory() as folder:
        return judged(cases(sys.argv[1], pathlib.Path(folder)))


if __name__ == "__main__":
    sys.exit(main())
