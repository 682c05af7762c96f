"""usb_camera RECORDING FOLDER: makes a USB camera for umockdev of a recording: FOLDER/camera.umockdev, what the device is, and FOLDER/camera.ioctl, its
transfers. Run a program against it by `umockdev-run -d FOLDER/camera.umockdev -i /dev/bus/usb/001/002=FOLDER/camera.ioctl -- PROGRAM`.

Each container is one transfer, in pieces of 16,384 bytes as c/usb.c asks for them. Notes are left out, and so are Events, which come on a pipe of their own."""
import pathlib
import sys

from model.containers import EVENT, read_container
from model.recording import NOTE, RECEIVED, read_recording

TRANSFER, BULK, IN, OUT = 16384, 3, 0x81, 0x02
DEVICE = bytes.fromhex('1201 0002 000000 40 6666 0100 0001 000000 01')
INTERFACE = bytes.fromhex('0902 2700 01 01 00 80 32  0904 00 00 03 06 01 01 00  0705 81 02 0002 00  0705 02 02 0002 00  0705 83 03 0800 09')

DESCRIBED = '''P: /devices/usb1/1-1
N: bus/usb/001/002={descriptors}
E: BUSNUM=001
E: DEVNAME=/dev/bus/usb/001/002
E: DEVNUM=002
E: DEVTYPE=usb_device
E: SUBSYSTEM=usb
A: bConfigurationValue=1
A: busnum=1\\n
A: devnum=2\\n
H: descriptors={descriptors}
A: speed=480

'''


def transfers(day):
    """For each container whether it comes from the camera, and its bytes."""
    for record in read_recording(day):
        body = day[record.start:record.after]
        if record.kind != NOTE and read_container(body)[0].kind != EVENT:
            yield record.kind == RECEIVED, body


def requests(day):
    """One line for each request of the bus."""
    yield 'USBDEVFS_GET_CAPABILITIES 0 0F000000'
    for is_answer, body in transfers(day):
        for start in range(0, len(body), TRANSFER) if is_answer else (0,):
            piece = body[start:start + TRANSFER] if is_answer else body
            pipe, asked = (IN, TRANSFER) if is_answer else (OUT, len(piece))
            yield f'USBDEVFS_REAPURBNDELAY 0 {BULK} {pipe} 0 0 {asked} {len(piece)} 0 {piece.hex().upper()}'


def main():
    day, folder = pathlib.Path(sys.argv[1]).read_bytes(), pathlib.Path(sys.argv[2])
    (folder / 'camera.umockdev').write_text(DESCRIBED.format(descriptors=(DEVICE + INTERFACE).hex().upper()))
    (folder / 'camera.ioctl').write_text(''.join(line + '\n' for line in requests(day)))


if __name__ == '__main__':
    main()
