/* The steps of a controller's day, over any transport: for controller.c and usb.c. */
#ifndef DAY_H
#define DAY_H

#include "ptp_camera.h"

/* The errors of a camera that is a recording: it expected something else; or, and the number of a refusal, what it holds is refused. */
enum { DAY_UNEXPECTED = 1, DAY_REFUSED = 256 };

/* The whole day, told line by line: what was sent and received goes to the file `out`, and its listing is printed last. 0, or 1 where it failed. */
int run_day(struct ptp_transport transport, const char *out);

#endif
