/* Tests of ptp_camera.c and ptp_table.c: what the day does not come to. Prints one line, or what failed. */
#include "ptp_camera.h"
#include "ptp_codes.h"
#include "ptp_table.h"

#include <stdio.h>
#include <stdlib.h>
#include <string.h>

#define CHECK(what)                                             \
    do {                                                        \
        if (!(what)) {                                          \
            fprintf(stderr, "line %d: %s\n", __LINE__, #what); \
            exit(1);                                            \
        }                                                       \
        checks++;                                               \
    } while (0)

static int checks;
static uint8_t made[8192], came[1 << 18], answer[1 << 18];
static const uint32_t NONE[1] = {0};

/* Gives the bytes of an answer in pieces of one size; behind the last, nothing. */
struct pieces {
    size_t len, size, given, sent;
};

static int take(void *self, const uint8_t *container, size_t len)
{
    ((struct pieces *)self)->sent++;
    return len < 12 || container[0] == 0;
}

static int give(void *self, uint8_t *room, size_t room_len, size_t *count)
{
    struct pieces *p = (struct pieces *)self;
    size_t left = p->len - p->given, most = p->size < room_len ? p->size : room_len;
    CHECK(room_len % 1024 == 0);
    *count = left < most ? left : most;
    memcpy(room, answer + p->given, *count);
    p->given += *count;
    return 0;
}

static size_t put(size_t at, uint16_t kind, uint16_t code, uint32_t number, const uint8_t *payload, size_t len)
{
    int64_t written = ptp_write_container(kind, code, number, payload, len, answer + at, sizeof answer - at);
    CHECK(written == (int64_t)len + 12);
    return at + (size_t)written;
}

static enum ptp_outcome ask(struct pieces *p, struct ptp_camera *c, size_t room, struct ptp_reply *reply)
{
    struct ptp_transport transport = {p, take, give};
    ptp_camera_begin(c, transport, made, sizeof made, came, room);
    return ptp_camera_ask(c, PTP_COMMAND_GET_OBJECT, NONE, 1, reply);
}

static void try_pieces(void)
{
    static uint8_t picture[100000];
    const uint8_t params[] = {7, 0, 0, 0, 8, 0, 0, 0};
    size_t len = put(put(0, 2, 0x1009, 0, picture, sizeof picture), 3, PTP_RESPONSE_OK, 0, params, sizeof params);
    for (size_t size = 1; size < 200000; size = size * 7 + 1) {
        struct pieces p = {len, size, 0, 0};
        struct ptp_camera c;
        struct ptp_reply reply;
        CHECK(ask(&p, &c, sizeof came, &reply) == PTP_OUTCOME_OK);
        CHECK(reply.payload_len == sizeof picture && memcmp(reply.payload, picture, sizeof picture) == 0);
        CHECK(reply.parameter_count == 2 && reply.parameters[0] == 7 && reply.parameters[1] == 8 && p.sent == 1);
    }
    struct pieces p = {len, len, 0, 0};
    struct ptp_camera c;
    struct ptp_reply reply;
    CHECK(ask(&p, &c, 65536, &reply) == PTP_OUTCOME_REFUSED && ptp_refusal_number(reply.why) == PTP_ROOM);
    struct pieces cut = {len - 1, len, 0, 0};
    CHECK(ask(&cut, &c, sizeof came, &reply) == PTP_OUTCOME_SILENT);
}

static void count_event(void *self, uint16_t code, const uint8_t *payload, size_t len)
{
    *(int *)self += code == PTP_EVENT_OBJECT_ADDED && payload && len == 0;
}

static void try_events(void)
{
    int heard = 0;
    size_t len = put(put(0, 4, PTP_EVENT_OBJECT_ADDED, 0, came, 0), 3, PTP_RESPONSE_DEVICE_BUSY, 0, came, 0);
    len = put(put(len, 4, PTP_EVENT_OBJECT_ADDED, 77, came, 0), 3, PTP_RESPONSE_OK, 0, came, 0);
    struct pieces p = {len, len, 0, 0};
    struct ptp_transport transport = {&p, take, give};
    struct ptp_camera c;
    struct ptp_reply reply;
    ptp_camera_begin(&c, transport, made, sizeof made, came, sizeof came);
    c.listener.self = &heard;
    c.listener.event = count_event;
    CHECK(ptp_camera_ask(&c, PTP_COMMAND_GET_OBJECT, NONE, 1, &reply) == PTP_OUTCOME_RESPONSE);
    CHECK(reply.code == PTP_RESPONSE_DEVICE_BUSY && heard == 2 && reply.payload_len == 0);
    CHECK(ptp_camera_send(&c, PTP_COMMAND_SEND_OBJECT, NONE, 0, answer, 5, &reply) == PTP_OUTCOME_OK && p.sent == 3);
    ptp_camera_forget(&c);
    CHECK(c.came_end == 0 && strcmp(ptp_event_name(PTP_EVENT_OBJECT_ADDED), "ObjectAdded") == 0 && !ptp_event_name(1));
    p.given = 0;
    c.retries = 1;
    CHECK(ptp_camera_ask(&c, PTP_COMMAND_GET_OBJECT, NONE, 1, &reply) == PTP_OUTCOME_OK && p.sent == 5);
}

static void try_recorder(void)
{
    static uint8_t room[70000];
    struct ptp_recorder r = {room, sizeof room, 0, 0, 0};
    size_t len = put(put(0, 2, 0x1009, 0, came, 65001 - 12), 3, PTP_RESPONSE_OK, 0, came, 0);
    CHECK(ptp_record_received(&r, answer, len) == 0 && r.held == 18 && r.left_containers == 1 && r.left_bytes == 65001);
    r.room_len = 30;
    CHECK(ptp_refusal_number(ptp_record_sent(&r, answer, len)) == PTP_ROOM && r.held == 18 && r.left_containers == 1);
}

static enum ptp_built build(const struct ptp_object *objects, size_t count, struct ptp_objects *table, uint32_t *handle)
{
    static uint8_t names[8192];
    CHECK(ptp_objects_begin(table, 0, names, sizeof names) == 0);
    return ptp_table_build(table, objects, count, handle);
}

static void try_builder(void)
{
    static struct ptp_objects table;
    static struct ptp_object chain[1024];
    const uint8_t name[] = {2, 'A', 0, 0, 0};
    uint32_t handle = 0, ends[PTP_PLACES];
    uint16_t places[PTP_PLACES];
    const struct ptp_object late[] = {{8, 7, name, 5}, {7, 0, name, 5}}, orphan[] = {{1, 5, name, 5}};
    const struct ptp_object circle[] = {{4, 0, name, 5}, {1, 2, name, 5}, {2, 1, name, 5}}, twice[] = {{4, 0, name, 5}, {4, 0, name, 5}};
    const struct ptp_object cut[] = {{4, 0, name, 3}};
    CHECK(build(late, 2, &table, &handle) == PTP_BUILT && ptp_objects_placed_paths(&table, came, 4, ends, places, 3) == 3);
    CHECK(memcmp(came, "AA/A", 4) == 0 && table.handles[places[2]] == 8);
    CHECK(ptp_objects_placed_folder_paths(&table, came, 4, ends, places, 2) < 0);
    CHECK(ptp_objects_placed_folder_paths(&table, came, 4, ends, places, 3) == 3 && table.handles[places[2]] == 8);
    CHECK(ptp_objects_paths(&table, came, 4, ends, 3) == 4 && ptp_objects_folder_paths(&table, came, 4, ends, 3) == 4);
    CHECK(build(orphan, 1, &table, &handle) == PTP_BUILT_ORPHAN && handle == 1 && table.count == 1);
    CHECK(build(circle, 3, &table, &handle) == PTP_BUILT_CIRCLE && (handle == 1 || handle == 2));
    CHECK(build(twice, 2, &table, &handle) == PTP_BUILT_TWICE && handle == 4);
    CHECK(build(cut, 1, &table, &handle) == PTP_BUILT_NAME && handle == 4);
    for (uint32_t n = 0; n < 1024; n++)
        chain[n].handle = n + 1, chain[n].parent = n, chain[n].name = name, chain[n].name_len = 5;
    CHECK(build(chain, 1024, &table, &handle) == PTP_BUILT_TOO_MANY && build(chain, 1023, &table, &handle) == PTP_BUILT && table.count == 1024);
    CHECK(ptp_is_plain_name((const uint8_t *)"1.JPG", 5) && ptp_is_plain_name((const uint8_t *)"\xC3\xA9", 2));
    CHECK(!ptp_is_plain_name((const uint8_t *)"..", 2) && !ptp_is_plain_name((const uint8_t *)"a/b", 3) && !ptp_is_plain_name(name, 0));
    CHECK(!ptp_is_plain_name((const uint8_t *)"\xC2\x85", 2) && !ptp_is_plain_name((const uint8_t *)"a\n", 2));
}

int main(void)
{
    try_pieces();
    try_events();
    try_recorder();
    try_builder();
    printf("%d checks of an exchange and of a table\n", checks);
    return 0;
}
