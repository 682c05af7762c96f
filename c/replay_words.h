/* The words of a question of docs/ASK.md, and the text of its answer. */
#ifndef REPLAY_WORDS_H
#define REPLAY_WORDS_H

#include "ptp.h"

#include <ctype.h>
#include <inttypes.h>
#include <stdio.h>
#include <stdlib.h>
#include <string.h>

enum { LONGEST = 1200000, MOST_PARAMS = 4096, MOST_WORDS = 12 };

static char line[LONGEST + 2];
static uint8_t first[LONGEST], second[LONGEST]; /* the bytes of a question's last words */

static unsigned digit_of(char digit)
{
    return (unsigned)(digit <= '9' ? digit - '0' : (digit | 0x20) - 'a' + 10);
}

static size_t read_bytes(const char *word, uint8_t *bytes)
{
    size_t len = 0;
    for (; isxdigit((unsigned char)word[0]) && isxdigit((unsigned char)word[1]); word += 2)
        bytes[len++] = (uint8_t)(digit_of(word[0]) * 16 + digit_of(word[1]));
    return len;
}

/* A number and, where the list goes on, the comma behind it. Zeros in front make it no octal one. */
static uint64_t read_number(const char **at)
{
    char *end;
    uint64_t number = strtoull(*at, &end, strncmp(*at, "0x", 2) == 0 ? 16 : 10);
    *at = end + (*end == ',');
    return number;
}

static uint64_t long_of(const char *word)
{
    return read_number(&word);
}

static uint32_t number_of(const char *word)
{
    return (uint32_t)long_of(word);
}

static uint16_t short_of(const char *word)
{
    return (uint16_t)long_of(word);
}

/* Item n of a list whose items have 1, 2, 4 or 8 bytes each. */
static uint64_t item_at(const void *list, size_t width, size_t n)
{
    switch (width) {
    case 1: return ((const uint8_t *)list)[n];
    case 2: return ((const uint16_t *)list)[n];
    case 4: return ((const uint32_t *)list)[n];
    default: return ((const uint64_t *)list)[n];
    }
}

static void put_item(void *list, size_t width, size_t n, uint64_t item)
{
    switch (width) {
    case 1: ((uint8_t *)list)[n] = (uint8_t)item; break;
    case 2: ((uint16_t *)list)[n] = (uint16_t)item; break;
    case 4: ((uint32_t *)list)[n] = (uint32_t)item; break;
    default: ((uint64_t *)list)[n] = item;
    }
}

/* The next number of a list, and how many times it stands there: N, or N*TIMES. */
static uint64_t read_run(const char **at, size_t *times)
{
    uint64_t number = read_number(at);
    *times = 1;
    if (**at == '*') {
        ++*at;
        *times = read_number(at);
    }
    return number;
}

/* How many items the list has. */
static size_t read_list(const char *word, void *list, size_t width)
{
    size_t len = 0, times = 0;
    uint64_t number = 0;
    while (times > 0 || (*word != '-' && *word)) {
        if (times == 0)
            number = read_run(&word, &times);
        put_item(list, width, len++, number);
        times--;
    }
    return len;
}

/* The refusal's number; of END and TEXT the place too, from the place where the question's bytes begin. */
static void print_refusal(const char *word, int64_t answer, uint64_t from)
{
    printf("%s %d", word, (int)ptp_refusal_number(answer));
    if (ptp_refusal_number(answer) == PTP_END || ptp_refusal_number(answer) == PTP_TEXT)
        printf(" %" PRIu64, ptp_refusal_place(answer) - from);
}

/* Whether it gave all its numbers; else the refusal is printed. */
static bool gave(int64_t answer, int64_t numbers)
{
    if (answer == numbers)
        return true;
    print_refusal("no", answer, 0);
    return false;
}

static uint64_t word_at(const uint8_t *s, size_t width)
{
    uint64_t word = 0;
    while (width-- > 0)
        word = word << 8 | s[width];
    return word;
}

static void print_number(uint64_t number)
{
    printf(" %" PRIu64, number);
}

/* A space and the bytes. */
static void print_bytes(const uint8_t *s, size_t len)
{
    fputs(len ? " " : " -", stdout);
    for (size_t i = 0; i < len; i++)
        printf("%02x", s[i]);
}

static void print_units(const uint8_t *s, uint64_t start, uint64_t count)
{
    printf("s<");
    for (uint64_t i = 0; i < count; i++)
        printf("%s%04x", i ? "." : "", (unsigned)word_at(s + start + 2 * i, 2));
    printf(">");
}

/* A string's count byte stands before its units: one more than they are; without any it may be 0 too. */
static void print_text(const uint8_t *s, uint64_t start, uint64_t count)
{
    uint8_t before = s[ptp_string_place(start)];
    printf(before == count + 1 || (before == 0 && count == 0) ? " " : " ? ");
    print_units(s, start, count);
}

/* An integer of one of the codes 1 to 10, signed where that is odd. */
static void print_integer(const uint8_t *s, unsigned code)
{
    size_t width = (size_t)1 << (code - 1) / 2;
    if (width == 16)
        printf("%" PRIu64 ":%" PRIu64, word_at(s + 8, 8), word_at(s, 8));
    else if (code % 2 == 0)
        printf("%" PRIu64, word_at(s, width));
    else if (s[width - 1] < 128)
        printf("%" PRIu64, word_at(s, width));
    else
        printf("-%" PRIu64, (UINT64_MAX >> (64 - 8 * width)) - word_at(s, width) + 1);
}

static void print_array(const uint8_t *s, uint64_t start, uint64_t count, unsigned code)
{
    printf("[");
    for (uint64_t i = 0; i < count; i++) {
        fputs(i ? "," : "", stdout);
        print_integer(s + start + (i << (code - 1) / 2), code);
    }
    printf("]");
}

static void print_shorts(const uint8_t *s, uint64_t start, uint64_t count)
{
    printf(" ");
    print_array(s, start, count, 4);
}

static void print_value(const uint8_t *s, uint64_t start, uint64_t length, uint64_t type)
{
    unsigned code = type & 0x3FFF;
    bool integer = 1 <= code && code <= 10;
    printf(" ");
    if (type == code && integer)
        print_integer(s + start, code);
    else if (type == (code | 0x4000) && integer)
        print_array(s, start + 4, (length - 4) >> (code - 1) / 2, code);
    else if (type == 0xFFFF)
        print_units(s, start + 1, length > 1 ? (length - 3) / 2 : 0);
    else
        printf("undef");
}

/* How many items of a list, from item n on, are equal. */
static size_t run_at(const void *list, size_t width, size_t n, size_t len)
{
    size_t end = n + 1;
    while (end < len && item_at(list, width, end) == item_at(list, width, n))
        end++;
    return end - n;
}

/* A space and the list, equal neighbours as one, with their count. */
static void print_runs(const void *list, size_t width, size_t len)
{
    fputs(len ? " " : " -", stdout);
    for (size_t n = 0, times; n < len; n += times) {
        times = run_at(list, width, n, len);
        printf("%s%" PRIu64, n ? "," : "", item_at(list, width, n));
        if (times > 1)
            printf("*%zu", times);
    }
}

/* A writer's answer, and the whole output. */
static void print_written(int64_t answer, const uint8_t *out, size_t room)
{
    if (answer < 0)
        print_refusal("no", answer, 0);
    else
        printf("ok %" PRId64, answer);
    print_bytes(out, room);
}

#endif
