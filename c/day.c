/* The steps of a controller's day: see day.h. rust/examples/day/mod.rs is the same in Rust. The camera is the example's, which is made after ptp
 * 0.5.0 and has its layout of descriptions; an ordinary camera has the book's. Nothing here reads or writes a byte of the protocol by hand. */
#include "day.h"
#include "ptp_table.h"

#include <inttypes.h>
#include <limits.h>
#include <stdio.h>
#include <string.h>

static const bool BOOK = false;
static const uint32_t NONE[1] = {0};

enum {
    MADE_ROOM = 1024,     /* for a command and its data */
    CAME_ROOM = 1 << 20,  /* for all answers of the day */
    RECORDING_ROOM = 65536,
    VALUE_ROOM = 65536,   /* no record holds a longer value */
    NAMES_ROOM = 1 << 16, /* for the names of all objects */
    UTF8_ROOM = 762,      /* 254 units, each of at most three bytes */
    TEXT_ROOM = 1 << 16   /* for paths */
};

/* An answer, and how it ended; a step goes on while that is well. */
struct bench {
    struct ptp_camera camera;
    struct ptp_reply reply;
    enum ptp_outcome outcome;
};

static bool ask(struct bench *b, uint16_t code, const uint32_t *params, size_t count)
{
    b->outcome = ptp_camera_ask(&b->camera, code, params, count, &b->reply);
    return b->outcome == PTP_OUTCOME_OK;
}

static bool is_well(struct bench *b, bool well, enum ptp_outcome outcome, int64_t why)
{
    if (!well) {
        b->outcome = outcome;
        b->reply.why = why;
    }
    return well;
}

/* Of a call of the library: whether it answered. */
static bool done(struct bench *b, int64_t answer)
{
    return is_well(b, answer >= 0, PTP_OUTCOME_REFUSED, answer);
}

static bool expected(struct bench *b, bool is)
{
    return is_well(b, is, PTP_OUTCOME_TRANSPORT, DAY_UNEXPECTED);
}

static void print_fault(const struct bench *b)
{
    switch (b->outcome) {
    case PTP_OUTCOME_OK: break;
    case PTP_OUTCOME_RESPONSE: fprintf(stderr, "response %04x\n", (unsigned)b->reply.code); break;
    case PTP_OUTCOME_REFUSED: fprintf(stderr, "refusal %d\n", (int)ptp_refusal_number(b->reply.why)); break;
    case PTP_OUTCOME_SILENT: fprintf(stderr, "the camera sends nothing\n"); break;
    case PTP_OUTCOME_TRANSPORT:
        if (b->reply.why > DAY_REFUSED)
            fprintf(stderr, "refusal %d\n", (int)(b->reply.why - DAY_REFUSED));
        else
            fprintf(stderr, b->reply.why == DAY_UNEXPECTED ? "the camera expected something else\n" : "the camera is gone\n");
    }
}

/* ---- what is printed ---- */

/* Behind some text the string whose units start there, at the right of so many characters. */
static void print_text(const char *before, const struct ptp_reply *of, uint64_t start, int width)
{
    uint8_t text[UTF8_ROOM];
    int64_t len = ptp_utf8(of->payload, of->payload_len, ptp_string_place(start), text, UTF8_ROOM);
    for (int64_t i = 0; i < len; i++)
        width -= (text[i] & 0xC0) != 0x80; /* a character's first byte */
    printf("%s%*s%.*s", before, width > 0 ? width : 0, "", (int)len, (const char *)text);
}

/* An integer, those of 128 bits as a pair of halves, which an array's items have in brackets. */
static void print_integer(const uint64_t *value, bool item)
{
    if (value[PTP_VALUE_KIND] == PTP_VALUE_SIGNED)
        printf("%" PRId64, (int64_t)value[PTP_VALUE_FIRST]);
    else if (value[PTP_VALUE_KIND] == PTP_VALUE_UNSIGNED)
        printf("%" PRIu64, value[PTP_VALUE_FIRST]);
    else
        printf(item ? "(%" PRIu64 ", %" PRIu64 ")" : "%" PRIu64 ":%" PRIu64, value[PTP_VALUE_SECOND], value[PTP_VALUE_FIRST]);
}

/* The value at a place. */
static void print_value(const struct ptp_reply *of, uint64_t place, uint16_t code)
{
    uint64_t value[PTP_VALUE_NUMBERS], item[PTP_VALUE_NUMBERS];
    if (ptp_value(of->payload, of->payload_len, place, code, value, PTP_VALUE_NUMBERS) < 0)
        return;
    if (value[PTP_VALUE_KIND] == PTP_VALUE_UNDEF) {
        printf("undef");
    } else if (value[PTP_VALUE_KIND] == PTP_VALUE_STRING) {
        print_text("", of, value[PTP_VALUE_FIRST], 0);
    } else if (value[PTP_VALUE_KIND] == PTP_VALUE_ARRAY) {
        printf("[");
        for (size_t n = 0; ptp_item(of->payload, of->payload_len, place, code, n, item, PTP_VALUE_NUMBERS) > 0; n++) {
            printf("%s", n > 0 ? ", " : "");
            print_integer(item, true);
        }
        printf("]");
    } else {
        print_integer(value, false);
    }
}

/* ---- the day ---- */

static bool open_session(struct bench *b)
{
    static const uint32_t session[] = {3, 0, 0}, none[] = {0, 0, 0};
    uint64_t device[PTP_DEVICE_NUMBERS];
    if (!ask(b, PTP_COMMAND_OPEN_SESSION, session, 3) || !ask(b, PTP_COMMAND_GET_DEVICE_INFO, none, 3) ||
        !done(b, ptp_device_info(b->reply.payload, b->reply.payload_len, device, PTP_DEVICE_NUMBERS)))
        return false;
    print_text("camera ", &b->reply, device[PTP_DEVICE_MANUFACTURER_START], 0);
    print_text(" ", &b->reply, device[PTP_DEVICE_MODEL_START], 0);
    print_text(" ", &b->reply, device[PTP_DEVICE_SERIAL_NUMBER_START], 0);
    printf(", %" PRIu64 " operations\n", device[PTP_DEVICE_OPERATIONS_SUPPORTED_COUNT]);
    return true;
}

/* The handles, or storage IDs, of the answer; how many there are. */
static bool take_handles(struct bench *b, uint64_t *handles, size_t *count)
{
    uint64_t part[PTP_PART_NUMBERS];
    const struct ptp_reply *of = &b->reply;
    if (!done(b, ptp_handles(of->payload, of->payload_len, part, PTP_PART_NUMBERS)))
        return false;
    *count = part[PTP_PART_COUNT];
    return done(b, ptp_list_numbers(of->payload, of->payload_len, part[PTP_PART_START], PTP_UINT32, *count, handles, PTP_PLACES));
}

static bool show_storage(struct bench *b, uint32_t *id)
{
    uint64_t storage[PTP_STORAGE_NUMBERS], ids[PTP_PLACES];
    size_t count;
    if (!ask(b, PTP_COMMAND_GET_STORAGE_IDS, NONE, 0) || !take_handles(b, ids, &count) || !expected(b, count > 0))
        return false;
    *id = (uint32_t)ids[0];
    if (!ask(b, PTP_COMMAND_GET_STORAGE_INFO, id, 1) ||
        !done(b, ptp_storage_payload(b->reply.payload, b->reply.payload_len, storage, PTP_STORAGE_NUMBERS)))
        return false;
    printf("storage %" PRIu32, *id);
    print_text(" ", &b->reply, storage[PTP_STORAGE_STORAGE_DESCRIPTION_START], 0);
    printf(", %" PRIu64 " bytes free\n", storage[PTP_STORAGE_FREE_SPACE_IN_BYTES]);
    return true;
}

static bool show_property(struct bench *b, uint32_t property, struct ptp_reply *description)
{
    uint64_t prop[PTP_PROP_NUMBERS];
    if (!ask(b, PTP_COMMAND_GET_DEVICE_PROP_DESC, &property, 1) ||
        !done(b, ptp_prop_info(BOOK, b->reply.payload, b->reply.payload_len, prop, PTP_PROP_NUMBERS)))
        return false;
    *description = b->reply;
    printf("property %04x of type %04x: ", (unsigned)prop[PTP_PROP_PROPERTY_CODE], (unsigned)prop[PTP_PROP_DATA_TYPE]);
    print_value(&b->reply, prop[PTP_PROP_CURRENT_START], (uint16_t)prop[PTP_PROP_DATA_TYPE]);
    printf("\n");
    return true;
}

/* Two values of a type say the same where their tidy spellings are the same. */
static bool say_the_same(uint16_t code, const uint8_t *one, size_t one_len, const uint8_t *other, size_t other_len)
{
    static uint8_t tidy_one[VALUE_ROOM], tidy_other[VALUE_ROOM];
    int64_t len = ptp_tidy_value(code, one, one_len, tidy_one, VALUE_ROOM);
    return len >= 0 && len == ptp_tidy_value(code, other, other_len, tidy_other, VALUE_ROOM) && memcmp(tidy_one, tidy_other, (size_t)len) == 0;
}

/* The place of the value of the list that follows the current one, from step to step, and the place after it. */
static bool find_next(const struct ptp_reply *of, const uint64_t *prop, size_t *start, size_t *end)
{
    uint64_t step[PTP_NEXT_NUMBERS] = {prop[PTP_PROP_LIST_START], prop[PTP_PROP_FORM] == PTP_FORM_LIST ? prop[PTP_PROP_LIST_COUNT] : 0, 0, 0, 0};
    uint16_t code = (uint16_t)prop[PTP_PROP_DATA_TYPE];
    for (bool seen = false;;) {
        *start = step[PTP_NEXT_PLACE];
        if (ptp_next_value(of->payload, of->payload_len, code, *start, (uint16_t)step[PTP_NEXT_LEFT], step, PTP_NEXT_NUMBERS) <= 0)
            return false;
        *end = step[PTP_NEXT_PLACE];
        if (seen)
            return true;
        seen = say_the_same(code, of->payload + *start, *end - *start, of->payload + prop[PTP_PROP_CURRENT_START], prop[PTP_PROP_CURRENT_LENGTH]);
    }
}

/* The value that follows the current one, set again while the camera is busy. */
static bool set_next(struct bench *b, const struct ptp_reply *description)
{
    uint64_t prop[PTP_PROP_NUMBERS];
    size_t start, end;
    if (!done(b, ptp_prop_info(BOOK, description->payload, description->payload_len, prop, PTP_PROP_NUMBERS)) ||
        !expected(b, find_next(description, prop, &start, &end)))
        return false;
    printf("set to ");
    print_value(description, start, (uint16_t)prop[PTP_PROP_DATA_TYPE]);
    printf("\n");
    b->camera.retries = UINT_MAX;
    b->outcome = ptp_camera_set(&b->camera, BOOK, description->payload, description->payload_len, (uint16_t)prop[PTP_PROP_DATA_TYPE],
                                description->payload + start, end - start, &b->reply);
    b->camera.retries = 0;
    return b->outcome == PTP_OUTCOME_OK;
}

/* What an object is, for the table; its name stays in the answer. */
static bool show_object(struct bench *b, uint32_t handle, struct ptp_object *object)
{
    uint64_t info[PTP_OBJECT_NUMBERS], text[PTP_PART_NUMBERS];
    const struct ptp_reply *of = &b->reply;
    if (!ask(b, PTP_COMMAND_GET_OBJECT_INFO, &handle, 1) || !done(b, ptp_object_info(of->payload, of->payload_len, info, PTP_OBJECT_NUMBERS)))
        return false;
    printf("object %" PRIu32, handle);
    print_text(" ", of, info[PTP_OBJECT_FILENAME_START], 14);
    printf(" %" PRIu64 " bytes\n", info[PTP_OBJECT_OBJECT_COMPRESSED_SIZE]);
    size_t place = ptp_string_place(info[PTP_OBJECT_FILENAME_START]);
    if (!done(b, ptp_text(of->payload, of->payload_len, place, text, PTP_PART_NUMBERS)))
        return false;
    object->handle = handle;
    object->parent = (uint32_t)info[PTP_OBJECT_PARENT_OBJECT];
    object->name = of->payload + place;
    object->name_len = text[PTP_PART_NEXT] - place;
    return true;
}

static bool show_paths(struct bench *b, const struct ptp_object *objects, size_t count)
{
    static struct ptp_objects table;
    static uint8_t names[NAMES_ROOM], text[TEXT_ROOM];
    uint32_t ends[PTP_PLACES], handle;
    if (!done(b, ptp_objects_begin(&table, 0, names, NAMES_ROOM)) || !expected(b, ptp_table_build(&table, objects, count, &handle) == PTP_BUILT) ||
        !done(b, ptp_objects_paths(&table, text, TEXT_ROOM, ends, PTP_PLACES)))
        return false;
    for (size_t n = 0, start = 0; n < table.count; start = ends[n++])
        printf("path /%.*s\n", (int)(ends[n] - start), (const char *)text + start);
    return true;
}

/* The roots of a storage, what each is, and their paths; the handle of the second. */
static bool show_roots(struct bench *b, uint32_t storage, uint32_t *second)
{
    static struct ptp_object objects[PTP_PLACES];
    static uint64_t handles[PTP_PLACES];
    const uint32_t roots[] = {storage, 0, PTP_HANDLE_ROOTS};
    size_t count, n = 0;
    if (!ask(b, PTP_COMMAND_GET_OBJECT_HANDLES, roots, 3) || !take_handles(b, handles, &count))
        return false;
    while (n < count && show_object(b, (uint32_t)handles[n], &objects[n]))
        n++;
    if (n < count || !show_paths(b, objects, count) || !expected(b, count > 1))
        return false;
    *second = (uint32_t)handles[1];
    return true;
}

static bool fetch(struct bench *b, uint32_t handle)
{
    if (!ask(b, PTP_COMMAND_GET_OBJECT, &handle, 1))
        return false;
    printf("object %" PRIu32 ": %zu bytes came\n", handle, b->reply.payload_len);
    return true;
}

/* A command of the maker's own, whose Response is no standard one. */
static bool ask_makers_own(struct bench *b)
{
    static uint8_t names[PTP_NAME_BYTES];
    if (ask(b, 0x9001, NONE, 0) || b->outcome != PTP_OUTCOME_RESPONSE)
        return b->outcome == PTP_OUTCOME_OK;
    int64_t place = ptp_response_place(b->reply.code);
    printf("response %04x ", (unsigned)b->reply.code);
    if (place > 0 && ptp_name_bytes(names, PTP_NAME_BYTES) > 0)
        printf("%.*s\n", (int)(place % 65536), (const char *)names + place / 65536);
    else
        printf("has no name\n");
    return true;
}

static bool spend_day(struct bench *b)
{
    struct ptp_reply battery, shutter, own;
    uint32_t storage, first;
    return open_session(b) && show_storage(b, &storage) && show_property(b, 0x5001, &battery) && show_property(b, 0x500D, &shutter) &&
           show_property(b, 0xD005, &own) && set_next(b, &shutter) && show_roots(b, storage, &first) && fetch(b, first) && ask_makers_own(b) &&
           ask(b, PTP_COMMAND_CLOSE_SESSION, NONE, 0);
}

/* ---- the recording ---- */

static void say_busy(void *recorder, unsigned times)
{
    (void)recorder;
    (void)times;
    printf("the camera is busy\n");
}

static void print_lines(void *file, const uint8_t *text, size_t len)
{
    fwrite(text, 1, len, (FILE *)file);
}

int run_day(struct ptp_transport transport, const char *out)
{
    static struct bench bench;
    static uint8_t made[MADE_ROOM], came[CAME_ROOM], recording[RECORDING_ROOM];
    struct ptp_recorder recorder = {recording, RECORDING_ROOM, 0, 0, 0};
    ptp_camera_begin(&bench.camera, transport, made, MADE_ROOM, came, CAME_ROOM);
    bench.camera.listener.self = &recorder;
    bench.camera.listener.sent = ptp_record_sent;
    bench.camera.listener.received = ptp_record_received;
    bench.camera.listener.busy = say_busy;
    if (!spend_day(&bench)) {
        print_fault(&bench);
        return 1;
    }
    FILE *file = fopen(out, "wb");
    bool whole = file && fwrite(recording, 1, recorder.held, file) == recorder.held;
    if (!file || fclose(file) != 0 || !whole) {
        fprintf(stderr, "%s cannot be written\n", out);
        return 1;
    }
    ptp_list_recording(recording, recorder.held, print_lines, stdout);
    return 0;
}
