/* Values at a place, and the writers of values. */
#ifndef REPLAY_VALUES_H
#define REPLAY_VALUES_H

#include "replay_words.h"

/* A value by what it is and its two numbers; the items of an array are of the type that its code has. */
static void print_found(const uint8_t *s, uint64_t kind, uint64_t low, uint64_t high, unsigned code)
{
    printf("ok ");
    switch ((enum ptp_value_kind)kind) {
    case PTP_VALUE_UNDEF: printf("undef"); break;
    case PTP_VALUE_SIGNED: printf("%" PRId64, (int64_t)low); break;
    case PTP_VALUE_UNSIGNED: printf("%" PRIu64, low); break;
    case PTP_VALUE_WIDE: printf("%" PRIu64 ":%" PRIu64, high, low); break;
    case PTP_VALUE_ARRAY: print_array(s, low, high, code - PTP_ARRAY); break;
    case PTP_VALUE_STRING: print_units(s, low, high); break;
    }
}

static void value(const char *code, const char *at, const char *bytes)
{
    uint64_t x[PTP_VALUE_NUMBERS];
    size_t len = read_bytes(bytes, first);
    if (!gave(ptp_value(first, len, long_of(at), short_of(code), x, PTP_VALUE_NUMBERS), 4))
        return;
    print_found(first, x[PTP_VALUE_KIND], x[PTP_VALUE_FIRST], x[PTP_VALUE_SECOND], short_of(code));
    print_number(x[PTP_VALUE_NEXT]);
}

static void item(const char *code, const char *n, const char *at, const char *bytes)
{
    uint64_t x[PTP_VALUE_NUMBERS];
    size_t len = read_bytes(bytes, first);
    if (gave(ptp_item(first, len, long_of(at), short_of(code), long_of(n), x, PTP_VALUE_NUMBERS), 4))
        print_found(first, x[PTP_VALUE_KIND], x[PTP_VALUE_FIRST], x[PTP_VALUE_SECOND], 0);
}

static void unit(const char *n, const char *at, const char *bytes)
{
    uint64_t x[PTP_ONE_NUMBERS];
    size_t len = read_bytes(bytes, first);
    if (gave(ptp_unit(first, len, long_of(at), long_of(n), x, PTP_ONE_NUMBERS), 2))
        printf("ok %" PRIu64, x[PTP_ONE_NUMBER]);
}

/* Its length is told as it is written, and its units stand where its value has them. */
static void utf8(const char *at, const char *bytes, const char *room_word)
{
    uint64_t x[PTP_ONE_NUMBERS], part[PTP_PART_NUMBERS], whole[PTP_VALUE_NUMBERS];
    size_t len = read_bytes(bytes, first), room = number_of(room_word);
    memset(second, 0xA5, room);
    int64_t answer = ptp_utf8(first, len, long_of(at), second, room);
    if (answer >= 0 && (ptp_utf8_len(first, len, long_of(at), x, PTP_ONE_NUMBERS) != 2 || x[PTP_ONE_NUMBER] != (uint64_t)answer))
        printf("? ");
    if (answer >= 0 && (ptp_text(first, len, long_of(at), part, PTP_PART_NUMBERS) != 3 ||
                        ptp_value(first, len, long_of(at), PTP_STRING, whole, PTP_VALUE_NUMBERS) != 4 ||
                        part[PTP_PART_NEXT] != x[PTP_ONE_NEXT] || part[PTP_PART_NEXT] != whole[PTP_VALUE_NEXT] ||
                        part[PTP_PART_START] != whole[PTP_VALUE_FIRST] || part[PTP_PART_COUNT] != whole[PTP_VALUE_SECOND]))
        printf("? ");
    print_written(answer, second, room);
}

/* HIGH:LOW, or a number, which may be below 0; UNDEF has no bytes, which its tidy spelling shows. */
static void write_value(const char *code_word, const char *word, const char *room_word)
{
    uint16_t code = short_of(code_word);
    size_t room = number_of(room_word);
    const char *low = strchr(word, ':');
    uint64_t high = low ? long_of(word) : 0;
    uint64_t number = *word == '-' ? 0 - long_of(word + 1) : long_of(low ? low + 1 : word);
    memset(second, 0xA5, room);
    bool undef = strcmp(word, "undef") == 0;
    print_written(undef ? ptp_tidy_value(code, first, 0, second, room) : ptp_write_integer(code, number, high, second, room), second, room);
}

/* Of a writer that is given units: these have no place in bytes. */
static void print_spelled(int64_t answer, const uint8_t *out, size_t room)
{
    if (answer >= 0 || ptp_refusal_number(answer) != PTP_TEXT) {
        print_written(answer, out, room);
        return;
    }
    printf("no %d", (int)PTP_TEXT);
    print_bytes(out, room);
}

static void write_string(const char *units_word, const char *room_word)
{
    static uint16_t given[MOST_PARAMS];
    size_t len = read_list(units_word, given, sizeof *given), room = number_of(room_word);
    memset(second, 0xA5, room);
    print_spelled(ptp_write_text(given, len, second, room), second, room);
}

typedef int64_t writes_typed(uint16_t code, const uint8_t *s, size_t s_len, uint8_t *out, size_t out_len);
typedef int64_t writes(const uint8_t *s, size_t s_len, uint8_t *out, size_t out_len);

static void write_typed(writes_typed *f, const char *code, const char *bytes, const char *room_word)
{
    size_t len = read_bytes(bytes, first), room = number_of(room_word);
    memset(second, 0xA5, room);
    print_written(f(short_of(code), first, len, second, room), second, room);
}

static void tidy(writes *f, const char *bytes, const char *room_word)
{
    size_t len = read_bytes(bytes, first), room = number_of(room_word);
    memset(second, 0xA5, room);
    print_written(f(first, len, second, room), second, room);
}

static int64_t tidy_by_the_book(const uint8_t *s, size_t s_len, uint8_t *out, size_t out_len)
{
    return ptp_tidy_property(true, s, s_len, out, out_len);
}

static int64_t tidy_by_the_crate(const uint8_t *s, size_t s_len, uint8_t *out, size_t out_len)
{
    return ptp_tidy_property(false, s, s_len, out, out_len);
}

static void nth(bool book, const char *n, const char *bytes)
{
    uint64_t x[PTP_LIST_VALUE_NUMBERS], prop[PTP_PROP_NUMBERS];
    size_t len = read_bytes(bytes, first);
    if (!gave(ptp_list_value(book, first, len, long_of(n), x, PTP_LIST_VALUE_NUMBERS), 3))
        return;
    printf("ok");
    if (gave(ptp_prop_info(book, first, len, prop, PTP_PROP_NUMBERS), 16))
        print_value(first, x[PTP_LIST_VALUE_START], x[PTP_LIST_VALUE_LENGTH], prop[PTP_PROP_DATA_TYPE]);
    print_number(x[PTP_LIST_VALUE_START]);
    print_number(x[PTP_LIST_VALUE_LENGTH]);
}

/* A list gone through step by step; that of a refused description has no value. */
static void list(bool book, const char *bytes)
{
    uint64_t x[PTP_PROP_NUMBERS], next[PTP_NEXT_NUMBERS];
    size_t len = read_bytes(bytes, first);
    int64_t answer = ptp_prop_info(book, first, len, x, PTP_PROP_NUMBERS);
    if (answer < 0) {
        print_refusal("ok", answer, 0);
        printf(" 0");
        return;
    }
    bool some = x[PTP_PROP_FORM] == PTP_FORM_LIST;
    uint16_t code = (uint16_t)x[PTP_PROP_DATA_TYPE], left = some ? (uint16_t)x[PTP_PROP_LIST_COUNT] : 0;
    size_t at = some ? x[PTP_PROP_LIST_START] : 0;
    printf("ok 0 %u", (unsigned)left);
    while (ptp_next_value(first, len, code, at, left, next, PTP_NEXT_NUMBERS) == 5) {
        print_value(first, at, next[PTP_NEXT_PLACE] - at, code);
        at = next[PTP_NEXT_PLACE];
        left = (uint16_t)next[PTP_NEXT_LEFT];
    }
}

static void step(char *const *word)
{
    uint64_t x[PTP_NEXT_NUMBERS];
    size_t len = read_bytes(word[1], first);
    uint16_t code = short_of(word[2]);
    if (number_of(word[5]) || ptp_next_value(first, len, code, long_of(word[3]), short_of(word[4]), x, PTP_NEXT_NUMBERS) != 5) {
        printf("end");
        return;
    }
    print_found(first, x[PTP_NEXT_KIND], x[PTP_NEXT_FIRST], x[PTP_NEXT_SECOND], code);
    print_number(x[PTP_NEXT_PLACE]);
    print_number(x[PTP_NEXT_LEFT]);
}

static void name(int64_t place)
{
    static uint8_t names[PTP_NAME_BYTES];
    if (place == 0 || ptp_name_bytes(names, PTP_NAME_BYTES) != PTP_NAME_BYTES)
        printf("none");
    else
        printf("ok %.*s", (int)(place % 65536), (const char *)names + place / 65536);
}

/* Whether the question is one of these. */
/* A list that was filled, behind the answer of what was put at its front. */
static void print_lent(int64_t answer, const void *list, size_t width, size_t room)
{
    if (answer < 0)
        print_refusal("no", answer, 0);
    else
        printf("ok %" PRId64, answer);
    print_runs(list, width, room);
}

static void units(const char *place, const char *bytes, const char *room_word)
{
    static uint16_t out[MOST_PARAMS];
    size_t len = read_bytes(bytes, first), room = number_of(room_word);
    memset(out, 0xA5, sizeof out);
    print_lent(ptp_units(first, len, long_of(place), out, room), out, sizeof *out, room);
}

static void numbers(char *const *word)
{
    static uint64_t out[MOST_PARAMS];
    size_t len = read_bytes(word[4], first), room = number_of(word[5]);
    memset(out, 0xA5, sizeof out);
    int64_t answer = ptp_list_numbers(first, len, long_of(word[2]), (uint16_t)number_of(word[1]), long_of(word[3]), out, room);
    print_lent(answer, out, sizeof *out, room);
}

static bool ask_value(const char *kind, char *const *word)
{
    if (strcmp(kind, "value") == 0)
        value(word[1], word[2], word[3]);
    else if (strcmp(kind, "item") == 0)
        item(word[1], word[2], word[3], word[4]);
    else if (strcmp(kind, "unit") == 0)
        unit(word[1], word[2], word[3]);
    else if (strcmp(kind, "units") == 0)
        units(word[1], word[2], word[3]);
    else if (strcmp(kind, "numbers") == 0)
        numbers(word);
    else if (strcmp(kind, "utf8") == 0)
        utf8(word[1], word[2], word[3]);
    else if (strcmp(kind, "write-value") == 0)
        write_value(word[1], word[2], word[3]);
    else if (strcmp(kind, "write-string") == 0)
        write_string(word[1], word[2]);
    else if (strcmp(kind, "write-array") == 0)
        write_typed(ptp_write_array, word[1], word[2], word[3]);
    else if (strcmp(kind, "tidy-value") == 0)
        write_typed(ptp_tidy_value, word[1], word[2], word[3]);
    else if (strcmp(kind, "tidy-device") == 0)
        tidy(ptp_tidy_device, word[1], word[2]);
    else if (strcmp(kind, "tidy-object") == 0)
        tidy(ptp_tidy_object, word[1], word[2]);
    else if (strcmp(kind, "tidy-storage") == 0)
        tidy(ptp_tidy_storage, word[1], word[2]);
    else if (strcmp(kind, "tidy-property") == 0)
        tidy(strcmp(word[1], "book") == 0 ? tidy_by_the_book : tidy_by_the_crate, word[2], word[3]);
    else if (strcmp(kind, "nth") == 0)
        nth(strcmp(word[1], "book") == 0, word[2], word[3]);
    else if (strcmp(kind, "list") == 0)
        list(strcmp(word[1], "book") == 0, word[2]);
    else if (strcmp(kind, "step") == 0)
        step(word);
    else if (strcmp(kind, "response-name") == 0)
        name(ptp_response_place(short_of(word[1])));
    else if (strcmp(kind, "command-name") == 0)
        name(ptp_command_place(short_of(word[1])));
    else
        return false;
    return true;
}

#endif
