/* A controller's day against a camera that is a recording: what is sent must be what stands there, and what stands behind it comes back.
 *
 *     controller CAMERA OUT      CAMERA is a recording of a day; OUT is written, the recording that the controller makes
 *
 * rust/examples/controller.rs is the same in Rust.
 */
#include "day.h"

#include <stdio.h>
#include <stdlib.h>
#include <string.h>

/* The records of a day that are still to come. They are read one by one, so that what stands before damage is still answered. */
struct recorded {
    const uint8_t *s;
    size_t len;
    uint64_t record[PTP_RECORD_NUMBERS];
};

/* The next record, which stays: 1, 0 where none is left, or a refusal. */
static int64_t peek(struct recorded *r)
{
    int64_t answer = r->len > 0 ? ptp_read_record(r->s, r->len, r->record, PTP_RECORD_NUMBERS) : 0;
    return answer > 0 ? 1 : answer;
}

static void pass(struct recorded *r)
{
    r->s += r->record[PTP_RECORD_TAKEN];
    r->len -= r->record[PTP_RECORD_TAKEN];
}

static int refused(int64_t answer)
{
    return DAY_REFUSED + (int)ptp_refusal_number(answer);
}

/* The next container to the camera must be this one; notes are passed over. */
static int take(void *self, const uint8_t *container, size_t len)
{
    struct recorded *r = (struct recorded *)self;
    int64_t left;
    while ((left = peek(r)) > 0 && r->record[PTP_RECORD_KIND] == PTP_NOTE)
        pass(r);
    if (left < 0)
        return refused(left);
    if (left == 0 || r->record[PTP_RECORD_KIND] != PTP_TO_CAMERA || r->record[PTP_RECORD_BODY_LENGTH] != len ||
        memcmp(r->s + r->record[PTP_RECORD_BODY_START], container, len) != 0)
        return DAY_UNEXPECTED;
    pass(r);
    return 0;
}

/* Of the containers that come until the next one to the camera, as many as there is room for. Where none is left, no Response comes. */
static int answer(void *self, uint8_t *room, size_t room_len, size_t *count)
{
    struct recorded *r = (struct recorded *)self;
    int64_t left;
    *count = 0;
    while ((left = peek(r)) > 0 && r->record[PTP_RECORD_KIND] != PTP_TO_CAMERA && r->record[PTP_RECORD_BODY_LENGTH] <= room_len - *count) {
        if (r->record[PTP_RECORD_KIND] == PTP_FROM_CAMERA) {
            memcpy(room + *count, r->s + r->record[PTP_RECORD_BODY_START], r->record[PTP_RECORD_BODY_LENGTH]);
            *count += r->record[PTP_RECORD_BODY_LENGTH];
        }
        pass(r);
    }
    if (left < 0)
        return refused(left);
    return *count == 0 ? DAY_REFUSED + PTP_NOPHASE : 0;
}

/* A whole file, into a place of its own; NULL where it cannot be read. */
static uint8_t *read_file(const char *name, size_t *len)
{
    FILE *file = fopen(name, "rb");
    if (!file)
        return NULL;
    long size = fseek(file, 0, SEEK_END) == 0 ? ftell(file) : -1;
    uint8_t *bytes = size < 0 ? NULL : (uint8_t *)calloc((size_t)size + 1, 1);
    *len = bytes ? (size_t)size : 0;
    if (bytes && (fseek(file, 0, SEEK_SET) != 0 || fread(bytes, 1, *len, file) != *len)) {
        free(bytes);
        bytes = NULL;
    }
    fclose(file);
    return bytes;
}

int main(int argc, char **argv)
{
    if (argc != 3) {
        fprintf(stderr, "controller CAMERA OUT\n");
        return 2;
    }
    struct recorded day = {NULL, 0, {0}};
    struct ptp_transport transport = {&day, take, answer};
    uint8_t *bytes = read_file(argv[1], &day.len);
    if (!bytes) {
        fprintf(stderr, "%s cannot be read\n", argv[1]);
        return 2;
    }
    day.s = bytes;
    int status = run_day(transport, argv[2]);
    free(bytes);
    return status;
}
