/* Answers questions of docs/ASK.md through ptp.h: one a line in, one a line out. Each name of an answer's number in ptp.h is used here, so that
 * the replay of `ask` tries that it names the right one. The questions are well written; `./ptp rust` leaves the others out. */
#include "replay_words.h"
#include "replay_network.h"
#include "replay_values.h"
#include "replay_tables.h"

/* The length that was taken, where the question asks for it. */
static void print_taken(bool taken, uint64_t length)
{
    printf("ok");
    if (taken)
        print_number(length);
}

static void device(const uint8_t *s, size_t len, bool taken)
{
    uint64_t x[PTP_DEVICE_NUMBERS];
    if (!gave(ptp_device_info(s, len, x, PTP_DEVICE_NUMBERS), 25))
        return;
    print_taken(taken, x[PTP_DEVICE_TAKEN]);
    print_number(x[PTP_DEVICE_VERSION]);
    print_number(x[PTP_DEVICE_VENDOR_EX_ID]);
    print_number(x[PTP_DEVICE_VENDOR_EX_VERSION]);
    print_text(s, x[PTP_DEVICE_VENDOR_EXTENSION_DESC_START], x[PTP_DEVICE_VENDOR_EXTENSION_DESC_COUNT]);
    print_number(x[PTP_DEVICE_FUNCTIONAL_MODE]);
    print_shorts(s, x[PTP_DEVICE_OPERATIONS_SUPPORTED_START], x[PTP_DEVICE_OPERATIONS_SUPPORTED_COUNT]);
    print_shorts(s, x[PTP_DEVICE_EVENTS_SUPPORTED_START], x[PTP_DEVICE_EVENTS_SUPPORTED_COUNT]);
    print_shorts(s, x[PTP_DEVICE_DEVICE_PROPERTIES_SUPPORTED_START], x[PTP_DEVICE_DEVICE_PROPERTIES_SUPPORTED_COUNT]);
    print_shorts(s, x[PTP_DEVICE_CAPTURE_FORMATS_START], x[PTP_DEVICE_CAPTURE_FORMATS_COUNT]);
    print_shorts(s, x[PTP_DEVICE_IMAGE_FORMATS_START], x[PTP_DEVICE_IMAGE_FORMATS_COUNT]);
    print_text(s, x[PTP_DEVICE_MANUFACTURER_START], x[PTP_DEVICE_MANUFACTURER_COUNT]);
    print_text(s, x[PTP_DEVICE_MODEL_START], x[PTP_DEVICE_MODEL_COUNT]);
    print_text(s, x[PTP_DEVICE_DEVICE_VERSION_START], x[PTP_DEVICE_DEVICE_VERSION_COUNT]);
    print_text(s, x[PTP_DEVICE_SERIAL_NUMBER_START], x[PTP_DEVICE_SERIAL_NUMBER_COUNT]);
}

static void object(const uint8_t *s, size_t len, bool taken)
{
    uint64_t x[PTP_OBJECT_NUMBERS];
    if (!gave(ptp_object_info(s, len, x, PTP_OBJECT_NUMBERS), 24))
        return;
    print_taken(taken, x[PTP_OBJECT_TAKEN]);
    print_number(x[PTP_OBJECT_STORAGE_ID]);
    print_number(x[PTP_OBJECT_OBJECT_FORMAT]);
    print_number(x[PTP_OBJECT_PROTECTION_STATUS]);
    print_number(x[PTP_OBJECT_OBJECT_COMPRESSED_SIZE]);
    print_number(x[PTP_OBJECT_THUMB_FORMAT]);
    print_number(x[PTP_OBJECT_THUMB_COMPRESSED_SIZE]);
    print_number(x[PTP_OBJECT_THUMB_PIX_WIDTH]);
    print_number(x[PTP_OBJECT_THUMB_PIX_HEIGHT]);
    print_number(x[PTP_OBJECT_IMAGE_PIX_WIDTH]);
    print_number(x[PTP_OBJECT_IMAGE_PIX_HEIGHT]);
    print_number(x[PTP_OBJECT_IMAGE_BIT_DEPTH]);
    print_number(x[PTP_OBJECT_PARENT_OBJECT]);
    print_number(x[PTP_OBJECT_ASSOCIATION_TYPE]);
    print_number(x[PTP_OBJECT_ASSOCIATION_DESC]);
    print_number(x[PTP_OBJECT_SEQUENCE_NUMBER]);
    print_text(s, x[PTP_OBJECT_FILENAME_START], x[PTP_OBJECT_FILENAME_COUNT]);
    print_text(s, x[PTP_OBJECT_CAPTURE_DATE_START], x[PTP_OBJECT_CAPTURE_DATE_COUNT]);
    print_text(s, x[PTP_OBJECT_MODIFICATION_DATE_START], x[PTP_OBJECT_MODIFICATION_DATE_COUNT]);
    print_text(s, x[PTP_OBJECT_KEYWORDS_START], x[PTP_OBJECT_KEYWORDS_COUNT]);
}

static void storage(const uint8_t *s, size_t len, bool taken)
{
    uint64_t x[PTP_STORAGE_NUMBERS];
    if (!gave((taken ? ptp_storage_info : ptp_storage_payload)(s, len, x, PTP_STORAGE_NUMBERS), 11))
        return;
    print_taken(taken, x[PTP_STORAGE_TAKEN]);
    print_number(x[PTP_STORAGE_STORAGE_TYPE]);
    print_number(x[PTP_STORAGE_FILESYSTEM_TYPE]);
    print_number(x[PTP_STORAGE_ACCESS_CAPABILITY]);
    print_number(x[PTP_STORAGE_MAX_CAPACITY]);
    print_number(x[PTP_STORAGE_FREE_SPACE_IN_BYTES]);
    print_number(x[PTP_STORAGE_FREE_SPACE_IN_IMAGES]);
    print_text(s, x[PTP_STORAGE_STORAGE_DESCRIPTION_START], x[PTP_STORAGE_STORAGE_DESCRIPTION_COUNT]);
    print_text(s, x[PTP_STORAGE_VOLUME_LABEL_START], x[PTP_STORAGE_VOLUME_LABEL_COUNT]);
}

/* The values of a list must lie end to end in the bytes of the whole list. */
static void print_list(bool book, const uint8_t *s, size_t len, const uint64_t *x)
{
    uint64_t value[PTP_LIST_VALUE_NUMBERS], place = x[PTP_PROP_LIST_START];
    printf(" list %" PRIu64, x[PTP_PROP_LIST_COUNT]);
    for (uint64_t n = 0; n < x[PTP_PROP_LIST_COUNT]; n++) {
        if (!gave(ptp_list_value(book, s, len, n, value, PTP_LIST_VALUE_NUMBERS), 3) || value[PTP_LIST_VALUE_START] != place)
            printf(" ?");
        print_value(s, value[PTP_LIST_VALUE_START], value[PTP_LIST_VALUE_LENGTH], x[PTP_PROP_DATA_TYPE]);
        place = value[PTP_LIST_VALUE_NEXT];
    }
    if (place != x[PTP_PROP_LIST_START] + x[PTP_PROP_LIST_LENGTH])
        printf(" ?");
}

static void property(bool book, const uint8_t *s, size_t len)
{
    uint64_t x[PTP_PROP_NUMBERS];
    if (!gave(ptp_prop_info(book, s, len, x, PTP_PROP_NUMBERS), 16))
        return;
    uint64_t type = x[PTP_PROP_DATA_TYPE];
    printf("ok %" PRIu64, x[PTP_PROP_TAKEN]);
    print_number(x[PTP_PROP_PROPERTY_CODE]);
    print_number(type);
    print_number(x[PTP_PROP_GET_SET]);
    if (x[PTP_PROP_IS_ENABLE] == PTP_ENABLE_ABSENT)
        printf(" -");
    else
        print_number(x[PTP_PROP_IS_ENABLE]);
    print_value(s, x[PTP_PROP_FACTORY_DEFAULT_START], x[PTP_PROP_FACTORY_DEFAULT_LENGTH], type);
    print_value(s, x[PTP_PROP_CURRENT_START], x[PTP_PROP_CURRENT_LENGTH], type);
    if (x[PTP_PROP_FORM] == PTP_FORM_NONE)
        printf(" none");
    if (x[PTP_PROP_FORM] == PTP_FORM_RANGE) {
        printf(" range");
        print_value(s, x[PTP_PROP_MIN_START], x[PTP_PROP_MIN_LENGTH], type);
        print_value(s, x[PTP_PROP_MAX_START], x[PTP_PROP_MAX_LENGTH], type);
        print_value(s, x[PTP_PROP_STEP_START], x[PTP_PROP_STEP_LENGTH], type);
    }
    if (x[PTP_PROP_FORM] == PTP_FORM_LIST)
        print_list(book, s, len, x);
}

static void newer(bool book, const uint8_t *s, size_t len, const uint8_t *payload, size_t payload_len)
{
    uint64_t x[PTP_NEWER_NUMBERS];
    if (!gave(ptp_newer_value(book, s, len, payload, payload_len, x, PTP_NEWER_NUMBERS), 3))
        return;
    const uint8_t *part = (x[PTP_NEWER_OF_PAYLOAD] ? payload : s) + x[PTP_NEWER_START];
    printf("ok %s", x[PTP_NEWER_OF_PAYLOAD] ? "payload" : "description");
    print_number(x[PTP_NEWER_START]);
    print_number(x[PTP_NEWER_LENGTH]);
    print_bytes(part, x[PTP_NEWER_LENGTH]);
}

/* The number sent is that of the bytes; a refusal that does not leave the session's state is told as no refusal is. */
/* The Command ends where its own length says, and a refusal leaves that place as it was, which is the room. */
static void print_made(int64_t answer, uint32_t state, uint32_t number, size_t end, const uint8_t *out, size_t room)
{
    if (end != (answer < 0 ? room : word_at(out, 4)))
        printf("? ");
    if (answer < 0) {
        print_refusal(number == state ? "no" : "moved", answer, 0);
    } else {
        printf("ok");
        print_number(word_at(out + 8, 4));
        print_number(number);
        print_number((uint64_t)answer);
    }
    print_bytes(out, room);
}

static void command(uint32_t state, const char *code, const char *params_word, const char *data_word, const char *room_word)
{
    static uint32_t params[MOST_PARAMS];
    size_t params_len = read_list(params_word, params, sizeof *params);
    size_t len = data_word ? read_bytes(data_word, first) : 0;
    size_t room = number_of(room_word);
    uint32_t number = state;
    size_t end = room;
    memset(second, 0xA5, room);
    int64_t answer = ptp_command(&number, &end, (uint16_t)number_of(code), params, params_len, first, len, data_word != NULL, second, room);
    print_made(answer, state, number, end, second, room);
}

static void set_value(bool book, uint32_t state, const char *description, const char *code, const char *value, const char *room_word)
{
    static uint8_t chosen[LONGEST];
    size_t len = read_bytes(description, first);
    size_t chosen_len = read_bytes(value, chosen);
    size_t room = number_of(room_word);
    uint32_t number = state;
    size_t end = room;
    memset(second, 0xA5, room);
    int64_t answer = ptp_set_value(book, &number, &end, first, len, (uint16_t)number_of(code), chosen, chosen_len, second, room);
    print_made(answer, state, number, end, second, room);
}

static void answer(const uint8_t *s, size_t len, uint32_t number)
{
    uint64_t x[PTP_ANSWER_NUMBERS];
    if (!gave(ptp_find_answer(s, len, number, x, PTP_ANSWER_NUMBERS), 4))
        return;
    if (x[PTP_ANSWER_CODE] == PTP_RESPONSE_OK) {
        printf("ok data");
        print_number(x[PTP_ANSWER_PAYLOAD_START]);
        print_number(x[PTP_ANSWER_PAYLOAD_LENGTH]);
    } else {
        printf("ok response");
        print_number(x[PTP_ANSWER_CODE]);
    }
    print_number(x[PTP_ANSWER_NEXT]);
}

/* The payload of the last Data container up to a place. */
static void last_data(const uint8_t *s, size_t len, uint64_t end, uint64_t *data)
{
    uint64_t x[PTP_CONTAINER_NUMBERS];
    for (size_t at = 0; at < end && ptp_read_container(s, len, at, x, PTP_CONTAINER_NUMBERS) > 0; at = x[PTP_CONTAINER_NEXT])
        if (x[PTP_CONTAINER_KIND] == PTP_CONTAINER_DATA) {
            data[PTP_REPLY_PAYLOAD_START] = x[PTP_CONTAINER_PAYLOAD_START];
            data[PTP_REPLY_PAYLOAD_LENGTH] = x[PTP_CONTAINER_PAYLOAD_LENGTH];
        }
}

/* The Response itself: its payload ends where it does, and its parameters are the whole ones of it. For another Response than Ok no Data payload
 * is told: it is looked for here. */
static void response(const uint8_t *s, size_t len, uint32_t number)
{
    uint64_t x[PTP_REPLY_NUMBERS];
    if (!gave(ptp_find_response(s, len, number, x, PTP_REPLY_NUMBERS), 6))
        return;
    uint64_t data[PTP_REPLY_NUMBERS] = {0, 0, x[PTP_REPLY_PAYLOAD_START], x[PTP_REPLY_PAYLOAD_LENGTH], 0, 0};
    if (x[PTP_REPLY_CODE] != PTP_RESPONSE_OK)
        last_data(s, len, x[PTP_REPLY_PARAMETERS_START] - 12, data);
    uint64_t size = x[PTP_REPLY_NEXT] - x[PTP_REPLY_PARAMETERS_START];
    printf("ok");
    print_number(x[PTP_REPLY_CODE]);
    print_number(x[PTP_REPLY_PARAMETERS_START]);
    print_number(size);
    print_number(data[PTP_REPLY_PAYLOAD_START]);
    print_number(data[PTP_REPLY_PAYLOAD_LENGTH]);
    print_number(x[PTP_REPLY_NEXT]);
    if (x[PTP_REPLY_PARAMETERS_COUNT] != size / 4)
        printf(" ?");
}

static void print_entry(const uint8_t *row, uint64_t start, const uint64_t *x)
{
    print_number(start);
    print_number(x[PTP_ENTRY_NEXT] - start);
    print_number(x[PTP_ENTRY_KIND]);
    print_number(x[PTP_ENTRY_VENDOR]);
    print_number(x[PTP_ENTRY_PROPERTY]);
    if (x[PTP_ENTRY_KIND] == PTP_FOR_ONE)
        print_text(row, x[PTP_ENTRY_SERIAL_START], x[PTP_ENTRY_SERIAL_COUNT]);
    else
        printf(x[PTP_ENTRY_KIND] == PTP_FOR_ANY && x[PTP_ENTRY_SERIAL_COUNT] == 0 ? " -" : " ?");
    print_number(x[PTP_ENTRY_TYPE]);
    print_value(row, x[PTP_ENTRY_VALUE_START], x[PTP_ENTRY_VALUE_LENGTH], x[PTP_ENTRY_TYPE]);
}

/* The entries of a row lie end to end. */
static void settings(bool edition, const uint8_t *row, size_t len)
{
    uint64_t x[PTP_ENTRY_NUMBERS], place = 0;
    int64_t count = ptp_settings_check(edition, row, len);
    if (count < 0) {
        print_refusal("no", count, 0);
        return;
    }
    printf("ok %" PRId64, count);
    for (int64_t n = 0; n < count; n++) {
        if (!gave(ptp_settings_entry(edition, row, len, place, x, PTP_ENTRY_NUMBERS), 9))
            return;
        print_entry(row, place, x);
        place = x[PTP_ENTRY_NEXT];
    }
    if (place != len)
        printf(" ?");
}

static void settings_find(bool edition, char *const *word)
{
    static uint16_t serial[MOST_PARAMS];
    uint64_t x[PTP_KEPT_NUMBERS];
    size_t len = read_bytes(word[2], first), units = read_list(word[5], serial, sizeof *serial);
    int64_t found = ptp_settings_find(edition, first, len, number_of(word[3]), (uint16_t)number_of(word[4]), serial, units, x, PTP_KEPT_NUMBERS);
    if (found == 0) {
        printf("none");
        return;
    }
    if (!gave(found, 4))
        return;
    printf("ok");
    print_number(x[PTP_KEPT_KIND]);
    print_number(x[PTP_KEPT_TYPE]);
    print_value(first, x[PTP_KEPT_VALUE_START], x[PTP_KEPT_VALUE_LENGTH], x[PTP_KEPT_TYPE]);
    print_number(x[PTP_KEPT_VALUE_START]);
    print_number(x[PTP_KEPT_VALUE_LENGTH]);
}

static void settings_store(bool edition, const char *row, const char *entry, const char *room_word)
{
    static uint8_t stored[LONGEST];
    size_t len = read_bytes(row, first), entry_len = read_bytes(entry, stored), room = number_of(room_word);
    memset(second, 0xA5, room);
    int64_t answer = ptp_settings_store(edition, first, len, stored, entry_len, second, room);
    print_written(answer, second, room);
}

/* Of a key: its kind, and the units of its serial. */
static void settings_write(char *const *word)
{
    static uint16_t serial[MOST_PARAMS];
    size_t len = read_bytes(word[4], first), units = read_list(word[6], serial, sizeof *serial), room = number_of(word[7]);
    memset(second, 0xA5, room);
    int64_t answer = ptp_settings_write(number_of(word[1]), (uint16_t)number_of(word[2]), (uint16_t)number_of(word[3]), first, len,
                                        strcmp(word[5], "own") == 0, serial, units, second, room);
    print_spelled(answer, second, room);
}

static void settings_remove(bool edition, char *const *word)
{
    static uint16_t serial[MOST_PARAMS];
    size_t len = read_bytes(word[2], first), units = read_list(word[6], serial, sizeof *serial), room = number_of(word[7]);
    memset(second, 0xA5, room);
    int64_t answer = ptp_settings_remove(edition, first, len, number_of(word[3]), (uint16_t)number_of(word[4]), strcmp(word[5], "own") == 0, serial,
                                         units, second, room);
    print_written(answer, second, room);
}

/* Its container's numbers are those of the container that its body is; a note has none, and they are 0. */
static bool has_its_container(const uint8_t *s, const uint64_t *x)
{
    uint64_t own[PTP_CONTAINER_NUMBERS] = {0, 0, 0, 0, 0, 0};
    bool note = x[PTP_RECORD_KIND] == PTP_NOTE;
    if (!note && ptp_read_container(s, x[PTP_RECORD_TAKEN], x[PTP_RECORD_BODY_START], own, PTP_CONTAINER_NUMBERS) != 6)
        return false;
    return x[PTP_RECORD_CONTAINER_KIND] == own[PTP_CONTAINER_KIND] && x[PTP_RECORD_CODE] == own[PTP_CONTAINER_CODE] &&
           x[PTP_RECORD_NUMBER] == own[PTP_CONTAINER_NUMBER] && x[PTP_RECORD_PAYLOAD_START] == own[PTP_CONTAINER_PAYLOAD_START] &&
           x[PTP_RECORD_PAYLOAD_LENGTH] == own[PTP_CONTAINER_PAYLOAD_LENGTH];
}

static void record(const uint8_t *s, size_t len)
{
    uint64_t x[PTP_RECORD_NUMBERS];
    if (!gave(ptp_read_record(s, len, x, PTP_RECORD_NUMBERS), 9))
        return;
    printf(has_its_container(s, x) ? "ok" : "? ok");
    print_number(x[PTP_RECORD_KIND]);
    print_number(x[PTP_RECORD_BODY_START]);
    print_number(x[PTP_RECORD_BODY_LENGTH]);
    print_number(x[PTP_RECORD_TAKEN]);
}

/* The records lie end to end, and are as many as were counted. */
static void recording(const uint8_t *s, size_t len)
{
    uint64_t count[PTP_RECORDING_NUMBERS], x[PTP_RECORD_NUMBERS];
    if (!gave(ptp_read_recording(s, len, count, PTP_RECORDING_NUMBERS), 1))
        return;
    printf("ok %" PRIu64, count[PTP_RECORDING_RECORDS]);
    size_t at = 0;
    for (uint64_t n = 0; n < count[PTP_RECORDING_RECORDS]; n++) {
        if (!gave(ptp_read_record(s + at, len - at, x, PTP_RECORD_NUMBERS), 9))
            return;
        print_number(x[PTP_RECORD_KIND]);
        print_number(at + x[PTP_RECORD_BODY_START]);
        print_number(x[PTP_RECORD_BODY_LENGTH]);
        at += x[PTP_RECORD_TAKEN];
    }
    if (at != len)
        printf(" ?");
}

static void copy(const uint8_t *s, size_t len, const char *room_word)
{
    uint64_t left[PTP_LEFT_NUMBERS];
    size_t room = number_of(room_word);
    memset(second, 0xA5, room);
    int64_t count = ptp_copy_recording(s, len, second, room, left, PTP_LEFT_NUMBERS);
    print_written(count, second, room);
    if (count >= 0) {
        print_number(left[PTP_LEFT_RECORDS]);
        print_number(left[PTP_LEFT_BYTES]);
    }
}

static void mend(const uint8_t *s, size_t len, const char *room_word, const char *report_word)
{
    static uint64_t starts[MOST_PARAMS], lengths[MOST_PARAMS];
    uint64_t x[PTP_MENDED_NUMBERS];
    size_t room = number_of(room_word), report = number_of(report_word);
    memset(second, 0xA5, room);
    memset(starts, 0xA5, sizeof starts);
    memset(lengths, 0xA5, sizeof lengths);
    int64_t answer = ptp_mend_recording(s, len, second, room, starts, report, lengths, report, x, PTP_MENDED_NUMBERS);
    print_written(answer, second, room);
    if (answer >= 0)
        print_number(x[PTP_MENDED_STRETCHES]);
    print_runs(starts, sizeof *starts, report);
    print_runs(lengths, sizeof *lengths, report);
}

static void container(const uint8_t *s, size_t len)
{
    uint64_t x[PTP_CONTAINER_NUMBERS];
    if (!gave(ptp_read_container(s, len, 0, x, PTP_CONTAINER_NUMBERS), 6))
        return;
    if (x[PTP_CONTAINER_NEXT] != x[PTP_CONTAINER_PAYLOAD_START] + x[PTP_CONTAINER_PAYLOAD_LENGTH])
        printf("? ");
    printf("ok");
    print_number(x[PTP_CONTAINER_KIND]);
    print_number(x[PTP_CONTAINER_CODE]);
    print_number(x[PTP_CONTAINER_NUMBER]);
    print_number(x[PTP_CONTAINER_PAYLOAD_START]);
    print_number(x[PTP_CONTAINER_PAYLOAD_LENGTH]);
}

static void write_container(char *const *word)
{
    size_t len = read_bytes(word[4], first), room = number_of(word[5]);
    memset(second, 0xA5, room);
    print_written(ptp_write_container(short_of(word[1]), short_of(word[2]), number_of(word[3]), first, len, second, room), second, room);
}

static void write_record(char *const *word)
{
    size_t len = read_bytes(word[2], first), room = number_of(word[3]);
    memset(second, 0xA5, room);
    print_written(ptp_write_record(short_of(word[1]), first, len, second, room), second, room);
}

/* The text with its line ends as two characters; the line is asked for in pieces, each as long as its room. */
static void print_piece(int64_t count)
{
    for (int64_t i = 0; i < count; i++)
        if (second[i] == '\n')
            printf("\\n");
        else
            putchar(second[i]);
}

static void listing(const uint8_t *s, size_t len)
{
    uint64_t x[PTP_LISTED_NUMBERS] = {0, 0, 0, 0};
    printf("ok ");
    print_piece(ptp_write_heading(second, LONGEST));
    do {
        size_t used = x[PTP_LISTED_PLACE];
        int64_t count = ptp_list_window(s + used, len - used, true, x[PTP_LISTED_PLACE], x[PTP_LISTED_RECORDS], second, 200, x, PTP_LISTED_NUMBERS);
        print_piece(count);
    } while (x[PTP_LISTED_USED] && !x[PTP_LISTED_STOPPED]);
    print_piece(ptp_write_ending(x[PTP_LISTED_RECORDS], x[PTP_LISTED_PLACE], second, LONGEST));
}

static void payload(const char *kind, const uint8_t *s, size_t len)
{
    uint64_t x[PTP_STORAGE_NUMBERS];
    if (strcmp(kind, "object-count") == 0) {
        if (gave(ptp_object_count(s, len, x, PTP_ONE_NUMBERS), 2))
            printf("ok %" PRIu64, x[PTP_ONE_NUMBER]);
    } else if (gave(ptp_handles(s, len, x, PTP_PART_NUMBERS), 3)) {
        printf(x[PTP_PART_COUNT] ? "ok " : "ok -");
        for (uint64_t i = 0; i < x[PTP_PART_COUNT]; i++)
            printf("%s%" PRIu64, i ? "," : "", word_at(s + x[PTP_PART_START] + 4 * i, 4));
    }
}

static void ask(char *const *word)
{
    const char *kind = word[0];
    size_t len = read_bytes(word[1], first);
    if (strcmp(kind, "device") == 0)
        device(first, len, true);
    else if (strcmp(kind, "object") == 0)
        object(first, len, true);
    else if (strcmp(kind, "storage") == 0)
        storage(first, len, true);
    else if (strcmp(kind, "device-info") == 0)
        device(first, len, false);
    else if (strcmp(kind, "object-info") == 0)
        object(first, len, false);
    else if (strcmp(kind, "storage-info") == 0)
        storage(first, len, false);
    else if (strcmp(kind, "handles") == 0 || strcmp(kind, "storage-ids") == 0 || strcmp(kind, "object-count") == 0)
        payload(kind, first, len);
    else if (strcmp(kind, "property") == 0)
        property(strcmp(word[1], "book") == 0, first, read_bytes(word[2], first));
    else if (strcmp(kind, "newer") == 0)
        newer(strcmp(word[1], "book") == 0, first, read_bytes(word[2], first), second, read_bytes(word[3], second));
    else if (strcmp(kind, "command") == 0)
        command(number_of(word[1]), word[2], word[3], NULL, word[4]);
    else if (strcmp(kind, "command-data") == 0)
        command(number_of(word[1]), word[2], word[3], word[4], word[5]);
    else if (strcmp(kind, "panel") == 0)
        set_value(strcmp(word[1], "book") == 0, number_of(word[2]), word[3], word[4], word[5], word[6]);
    else if (strcmp(kind, "answer") == 0)
        answer(second, read_bytes(word[2], second), number_of(word[1]));
    else if (strcmp(kind, "response") == 0)
        response(second, read_bytes(word[2], second), number_of(word[1]));
    else if (strcmp(kind, "needed") == 0)
        printf("ok %" PRId64, ptp_needed(second, read_bytes(word[2], second), number_of(word[1])));
    else if (strcmp(kind, "settings-write") == 0)
        settings_write(word);
    else if (strcmp(kind, "settings-remove") == 0)
        settings_remove(number_of(word[1]) == 2, word);
    else if (strcmp(kind, "settings") == 0)
        settings(number_of(word[1]) == 2, first, read_bytes(word[2], first));
    else if (strcmp(kind, "settings-find") == 0)
        settings_find(number_of(word[1]) == 2, word);
    else if (strcmp(kind, "settings-store") == 0)
        settings_store(number_of(word[1]) == 2, word[2], word[3], word[4]);
    else if (strcmp(kind, "record") == 0)
        record(first, len);
    else if (strcmp(kind, "recording") == 0)
        recording(first, len);
    else if (strcmp(kind, "packet") == 0)
        packet(long_of(word[1]), first, read_bytes(word[2], first));
    else if (strcmp(kind, "to-network") == 0 || strcmp(kind, "from-network") == 0)
        translate(kind, word);
    else if (strcmp(kind, "copy") == 0)
        copy(first, len, word[2]);
    else if (strcmp(kind, "mend") == 0)
        mend(first, len, word[2], word[3]);
    else if (strcmp(kind, "container") == 0)
        container(first, len);
    else if (strcmp(kind, "write-container") == 0)
        write_container(word);
    else if (strcmp(kind, "write-record") == 0)
        write_record(word);
    else if (strcmp(kind, "listing") == 0)
        listing(first, len);
    else if (!ask_value(kind, word))
        ask_table(kind, word);
}

int main(void)
{
    static char none[] = "";
    while (fgets(line, sizeof line, stdin)) {
        char *word[MOST_WORDS];
        for (size_t i = 0; i < MOST_WORDS; i++) {
            word[i] = strtok(i ? NULL : line, " \n");
            if (!word[i])
                word[i] = none;
        }
        ask(word);
        printf("\n");
    }
    return 0;
}
