/* The controller's day over USB, by libusb-1.0: the first still image camera (class 6, subclass 1, protocol 1) that is plugged in.
 *
 *     usb OUT      OUT is written, the recording that the controller makes
 *
 * The day and its exchanges are those of controller.c. Events come on a pipe of their own, which is not read here.
 */
#include "day.h"

#include <libusb-1.0/libusb.h>
#include <stdio.h>

enum { LONGEST_WAIT = 5000 /* milliseconds */, TRANSFER = 16384, STILL_IMAGE = 6 };

struct usb {
    libusb_device_handle *handle;
    uint8_t interface_number, in, out;
    uint16_t packet;
};

/* A transfer whose length is a multiple of the packet's ends with a packet of no bytes. */
static int send_container(void *self, const uint8_t *container, size_t len)
{
    struct usb *u = (struct usb *)self;
    int moved = 0, why = libusb_bulk_transfer(u->handle, u->out, (uint8_t *)(uintptr_t)container, (int)len, &moved, LONGEST_WAIT);
    if (!why && (size_t)moved != len)
        return LIBUSB_ERROR_IO;
    if (!why && len % u->packet == 0)
        why = libusb_bulk_transfer(u->handle, u->out, (uint8_t *)(uintptr_t)container, 0, &moved, LONGEST_WAIT);
    return why;
}

static int receive(void *self, uint8_t *room, size_t room_len, size_t *count)
{
    struct usb *u = (struct usb *)self;
    int came = 0, why = libusb_bulk_transfer(u->handle, u->in, room, room_len < TRANSFER ? (int)room_len : TRANSFER, &came, LONGEST_WAIT);
    *count = (size_t)came;
    return why;
}

/* The two bulk pipes of an interface for still images. */
static bool find_pipes(const struct libusb_interface_descriptor *i, struct usb *u)
{
    u->in = u->out = 0;
    u->interface_number = i->bInterfaceNumber;
    for (int n = 0; n < i->bNumEndpoints; n++) {
        const struct libusb_endpoint_descriptor *pipe = &i->endpoint[n];
        if ((pipe->bmAttributes & 3) != LIBUSB_TRANSFER_TYPE_BULK)
            continue;
        *(pipe->bEndpointAddress & LIBUSB_ENDPOINT_IN ? &u->in : &u->out) = pipe->bEndpointAddress;
        u->packet = pipe->wMaxPacketSize;
    }
    return i->bInterfaceClass == STILL_IMAGE && i->bInterfaceSubClass == 1 && i->bInterfaceProtocol == 1 && u->in && u->out && u->packet;
}

static bool find_interface(libusb_device *device, struct usb *u)
{
    struct libusb_config_descriptor *config;
    bool found = false;
    if (libusb_get_active_config_descriptor(device, &config) != 0)
        return false;
    for (int n = 0; !found && n < config->bNumInterfaces; n++)
        found = config->interface[n].num_altsetting > 0 && find_pipes(config->interface[n].altsetting, u);
    libusb_free_config_descriptor(config);
    return found;
}

static bool open_camera(struct usb *u)
{
    libusb_device **devices;
    ssize_t count = libusb_get_device_list(NULL, &devices), n = 0;
    while (n < count && !find_interface(devices[n], u))
        n++;
    bool opened = n < count && libusb_open(devices[n], &u->handle) == 0 && libusb_claim_interface(u->handle, u->interface_number) == 0;
    if (count >= 0)
        libusb_free_device_list(devices, 1);
    return opened;
}

int main(int argc, char **argv)
{
    struct usb u = {NULL, 0, 0, 0, 0};
    struct ptp_transport transport = {&u, send_container, receive};
    if (argc != 2) {
        fprintf(stderr, "usb OUT\n");
        return 2;
    }
    if (libusb_init(NULL) != 0 || !open_camera(&u)) {
        fprintf(stderr, "no camera can be opened\n");
        return 2;
    }
    int status = run_day(transport, argv[1]);
    libusb_release_interface(u.handle, u.interface_number);
    libusb_close(u.handle);
    libusb_exit(NULL);
    return status;
}
