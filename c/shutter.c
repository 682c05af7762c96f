/* Picks the shutter time that follows the current one, and prints the command that sets it.
 *
 *     shutter [LAYOUT HEX]      HEX is a property's description, LAYOUT crate or book; without them, one that stands here
 *
 * rust/examples/shutter.rs is the same in Rust.
 */
#include "ptp.h"

#include <stdio.h>
#include <stdlib.h>
#include <string.h>

enum { ROOM = 64 };

/* An exposure time, 0x500D, a UINT32 in units of 0.1 ms: 1/125 s now, out of a list of six. */
static const char DESCRIPTION[] = "0d5006000101"
                                  "50000000" /* the default, 80 */
                                  "50000000" /* the current value, 80 */
                                  "020600"   /* a list of six */
                                  "0a000000" "14000000" "28000000" "50000000" "a6000000" "4d010000";

static int refused(int64_t answer)
{
    fprintf(stderr, "refusal %d\n", (int)ptp_refusal_number(answer));
    return 1;
}

/* Bytes of two digits each, into a place of their own; NULL where they are not written so. */
static uint8_t *read_hex(const char *hex, size_t *len)
{
    static const char digits[] = "0123456789abcdef";
    *len = strlen(hex) / 2;
    uint8_t *bytes = strlen(hex) % 2 == 0 ? (uint8_t *)malloc(*len + 1) : NULL;
    for (size_t i = 0; bytes && i < *len; i++) {
        const char *high = strchr(digits, hex[2 * i]);
        const char *low = strchr(digits, hex[2 * i + 1]);
        if (!high || !low) {
            free(bytes);
            return NULL;
        }
        bytes[i] = (uint8_t)((high - digits) * 16 + (low - digits));
    }
    return bytes;
}

/* The value of the list, from *start to *end, that follows the one whose bytes are the current value's; false where there is none. */
static bool next_value(const uint8_t *s, size_t len, const uint64_t *prop, size_t *start, size_t *end)
{
    uint64_t step[PTP_NEXT_NUMBERS] = {prop[PTP_PROP_LIST_START], prop[PTP_PROP_LIST_COUNT], 0, 0, 0};
    bool seen = false;
    if (prop[PTP_PROP_FORM] != PTP_FORM_LIST)
        return false;
    for (*start = step[PTP_NEXT_PLACE];; *start = *end) {
        if (ptp_next_value(s, len, (uint16_t)prop[PTP_PROP_DATA_TYPE], *start, (uint16_t)step[PTP_NEXT_LEFT], step, PTP_NEXT_NUMBERS) <= 0)
            return false;
        *end = step[PTP_NEXT_PLACE];
        if (seen)
            return true;
        seen = *end - *start == prop[PTP_PROP_CURRENT_LENGTH] && memcmp(s + *start, s + prop[PTP_PROP_CURRENT_START], *end - *start) == 0;
    }
}

static int set_next(bool book, const uint8_t *s, size_t len)
{
    uint64_t prop[PTP_PROP_NUMBERS];
    size_t start, stop;
    int64_t answer = ptp_prop_info(book, s, len, prop, PTP_PROP_NUMBERS);
    if (answer < 0)
        return refused(answer);
    if (!next_value(s, len, prop, &start, &stop)) {
        fprintf(stderr, "no value follows the current one\n");
        return 1;
    }
    uint32_t number = 1; /* OpenSession took 0 */
    size_t end = 0;
    uint8_t out[ROOM];
    answer = ptp_set_value(book, &number, &end, s, len, (uint16_t)prop[PTP_PROP_DATA_TYPE], s + start, stop - start, out, ROOM);
    if (answer < 0)
        return refused(answer);
    for (int64_t i = 0; i < answer; i++)
        printf("%02x", out[i]);
    printf("\n");
    return 0;
}

int main(int argc, char **argv)
{
    size_t len;
    const char *layout = argc > 1 ? argv[1] : "crate";
    bool book = strcmp(layout, "book") == 0;
    uint8_t *s = read_hex(argc > 2 ? argv[2] : DESCRIPTION, &len);
    if (!s || (!book && strcmp(layout, "crate") != 0)) {
        fprintf(stderr, "the layout is crate or book, the description two small hexadecimal digits a byte\n");
        free(s);
        return 2;
    }
    int code = set_next(book, s, len);
    free(s);
    return code;
}
