/* One exchange with a camera: see ptp_camera.h. Plain C. */
#include "ptp_camera.h"

#include <string.h>

/* No receive asks for more, whatever length a container announces. */
static const size_t MOST = 1048576;
static const size_t PACKETS = 1024;

static const uint8_t NO_BYTES[1] = {0};
static const uint32_t NO_PARAMETERS[1] = {0};

void ptp_camera_begin(struct ptp_camera *c, struct ptp_transport transport, uint8_t *made, size_t made_len, uint8_t *came, size_t came_len)
{
    memset(c, 0, sizeof *c);
    c->transport = transport;
    c->made = made;
    c->made_len = made_len;
    c->came = came;
    c->came_len = came_len;
}

void ptp_camera_forget(struct ptp_camera *c)
{
    size_t rest = c->came_end - c->came_start;
    memmove(c->came, c->came + c->came_start, rest);
    c->came_start = 0;
    c->came_end = rest;
}

/* What is to be made: a command, with data or without, or a description's value. */
struct request {
    uint16_t code;
    const uint32_t *params;
    size_t params_len;
    const uint8_t *data;
    size_t data_len;
    bool with_data;
    bool book;
    const uint8_t *description; /* NULL for a command */
    size_t description_len;
};

static enum ptp_outcome refused(struct ptp_reply *reply, int64_t why)
{
    reply->why = why;
    return PTP_OUTCOME_REFUSED;
}

static int64_t make(struct ptp_camera *c, const struct request *r, size_t *end)
{
    if (r->description)
        return ptp_set_value(r->book, &c->number, end, r->description, r->description_len, r->code, r->data, r->data_len, c->made, c->made_len);
    return ptp_command(&c->number, end, r->code, r->params, r->params_len, r->data, r->data_len, r->with_data, c->made, c->made_len);
}

/* Makes the command and sends it, its data as a second transfer; gives the number that it has. */
static enum ptp_outcome send(struct ptp_camera *c, const struct request *r, uint32_t *number, struct ptp_reply *reply)
{
    uint64_t command[PTP_CONTAINER_NUMBERS];
    size_t end = 0;
    int64_t len = make(c, r, &end);
    if (len >= 0 && c->listener.sent) {
        int64_t heard = c->listener.sent(c->listener.self, c->made, (size_t)len);
        len = heard < 0 ? heard : len;
    }
    if (len >= 0) {
        int64_t read = ptp_read_container(c->made, (size_t)len, 0, command, PTP_CONTAINER_NUMBERS);
        len = read < 0 ? read : len;
    }
    if (len < 0)
        return refused(reply, len);
    *number = (uint32_t)command[PTP_CONTAINER_NUMBER];
    reply->why = c->transport.send(c->transport.self, c->made, end);
    if (!reply->why && end < (size_t)len)
        reply->why = c->transport.send(c->transport.self, c->made + end, (size_t)len - end);
    return reply->why ? PTP_OUTCOME_TRANSPORT : PTP_OUTCOME_OK;
}

/* Receives until nothing more is needed. */
static enum ptp_outcome gather(struct ptp_camera *c, uint32_t number, struct ptp_reply *reply)
{
    bool silent = false;
    for (;;) {
        int64_t needed = ptp_needed(c->came + c->came_start, c->came_end - c->came_start, number);
        size_t left = c->came_len - c->came_end, count = 0;
        if (needed == 0)
            return PTP_OUTCOME_OK;
        left -= left % PACKETS;
        if (left < (size_t)needed)
            return refused(reply, -PTP_ROOM);
        left = left < MOST ? left : MOST;
        reply->why = c->transport.receive(c->transport.self, c->came + c->came_end, left, &count);
        if (reply->why)
            return PTP_OUTCOME_TRANSPORT;
        if (count == 0 && silent)
            return PTP_OUTCOME_SILENT;
        silent = count == 0;
        c->came_end += count < left ? count : left;
    }
}

/* The place after the events that stand from a place on. */
static size_t events_end(const uint8_t *s, size_t len, size_t at)
{
    uint64_t container[PTP_CONTAINER_NUMBERS];
    while (at < len && ptp_read_container(s, len, at, container, PTP_CONTAINER_NUMBERS) >= 0 &&
           container[PTP_CONTAINER_KIND] == PTP_CONTAINER_EVENT)
        at = container[PTP_CONTAINER_NEXT];
    return at;
}

static void tell_events(const struct ptp_camera *c, const uint8_t *s, size_t len)
{
    uint64_t container[PTP_CONTAINER_NUMBERS];
    for (size_t at = 0; at < len && ptp_read_container(s, len, at, container, PTP_CONTAINER_NUMBERS) >= 0; at = container[PTP_CONTAINER_NEXT])
        if (container[PTP_CONTAINER_KIND] == PTP_CONTAINER_EVENT && c->listener.event)
            c->listener.event(c->listener.self, (uint16_t)container[PTP_CONTAINER_CODE], s + container[PTP_CONTAINER_PAYLOAD_START],
                              container[PTP_CONTAINER_PAYLOAD_LENGTH]);
}

static void fill_reply(struct ptp_reply *reply, const uint8_t *s, size_t len, const uint64_t *found)
{
    uint64_t words[5];
    size_t count = found[PTP_REPLY_PARAMETERS_COUNT] < 5 ? found[PTP_REPLY_PARAMETERS_COUNT] : 5;
    reply->code = (uint16_t)found[PTP_REPLY_CODE];
    reply->payload = s + found[PTP_REPLY_PAYLOAD_START];
    reply->payload_len = found[PTP_REPLY_PAYLOAD_LENGTH];
    int64_t given = ptp_list_numbers(s, len, found[PTP_REPLY_PARAMETERS_START], PTP_UINT32, count, words, 5);
    reply->parameter_count = given < 0 ? 0 : (size_t)given;
    for (size_t n = 0; n < reply->parameter_count; n++)
        reply->parameters[n] = (uint32_t)words[n];
}

/* The answer out of what came, with the events right behind it; what follows is the next one's. */
static enum ptp_outcome take_reply(struct ptp_camera *c, uint32_t number, struct ptp_reply *reply)
{
    const uint8_t *s = c->came + c->came_start;
    size_t len = c->came_end - c->came_start;
    uint64_t found[PTP_REPLY_NUMBERS];
    int64_t answer = ptp_find_response(s, len, number, found, PTP_REPLY_NUMBERS);
    if (answer >= 0)
        len = events_end(s, len, found[PTP_REPLY_NEXT]);
    c->came_start += len;
    /* what the camera sent in an answer's place is heard too */
    int64_t heard = c->listener.received ? c->listener.received(c->listener.self, s, len) : 0;
    if (answer < 0 || heard < 0)
        return refused(reply, answer < 0 ? answer : heard);
    tell_events(c, s, len);
    fill_reply(reply, s, len, found);
    return reply->code == PTP_RESPONSE_OK ? PTP_OUTCOME_OK : PTP_OUTCOME_RESPONSE;
}

/* One exchange, and again while the camera is busy, as often as is said. What came of one that failed is dropped. */
static enum ptp_outcome exchange(struct ptp_camera *c, const struct request *r, struct ptp_reply *reply)
{
    for (unsigned times = 0;;) {
        uint32_t number = 0;
        memset(reply, 0, sizeof *reply);
        reply->payload = NO_BYTES;
        enum ptp_outcome outcome = send(c, r, &number, reply);
        if (outcome == PTP_OUTCOME_OK)
            outcome = gather(c, number, reply);
        if (outcome == PTP_OUTCOME_OK)
            outcome = take_reply(c, number, reply);
        else
            c->came_end = c->came_start;
        if (outcome != PTP_OUTCOME_RESPONSE || reply->code != PTP_RESPONSE_DEVICE_BUSY || times == c->retries)
            return outcome;
        times++;
        if (c->listener.busy)
            c->listener.busy(c->listener.self, times);
    }
}

enum ptp_outcome ptp_camera_ask(struct ptp_camera *c, uint16_t code, const uint32_t *params, size_t params_len, struct ptp_reply *reply)
{
    struct request r = {code, params, params_len, NO_BYTES, 0, false, false, NULL, 0};
    return exchange(c, &r, reply);
}

enum ptp_outcome ptp_camera_send(struct ptp_camera *c, uint16_t code, const uint32_t *params, size_t params_len, const uint8_t *data,
                                 size_t data_len, struct ptp_reply *reply)
{
    struct request r = {code, params, params_len, data, data_len, true, false, NULL, 0};
    return exchange(c, &r, reply);
}

enum ptp_outcome ptp_camera_set(struct ptp_camera *c, bool book, const uint8_t *description, size_t description_len, uint16_t code,
                                const uint8_t *value, size_t value_len, struct ptp_reply *reply)
{
    struct request r = {code, NO_PARAMETERS, 0, value, value_len, false, book, description, description_len};
    return exchange(c, &r, reply);
}

/* A record of each container; where one is refused, of none. */
static int64_t record_all(struct ptp_recorder *r, uint16_t kind, const uint8_t *s, size_t len)
{
    struct ptp_recorder kept = *r;
    uint64_t container[PTP_CONTAINER_NUMBERS];
    for (size_t at = 0; at < len; at = container[PTP_CONTAINER_NEXT]) {
        int64_t answer = ptp_read_container(s, len, at, container, PTP_CONTAINER_NUMBERS);
        size_t size = answer < 0 ? 0 : container[PTP_CONTAINER_NEXT] - at;
        if (answer >= 0)
            answer = ptp_write_record(kind, s + at, size, r->room + r->held, r->room_len - r->held);
        if (answer >= 0) {
            r->held += (size_t)answer;
        } else if (ptp_refusal_number(answer) == PTP_LONG) {
            r->left_containers++;
            r->left_bytes += size;
        } else {
            *r = kept;
            return answer;
        }
    }
    return 0;
}

int64_t ptp_record_sent(void *recorder, const uint8_t *containers, size_t len)
{
    return record_all((struct ptp_recorder *)recorder, PTP_TO_CAMERA, containers, len);
}

int64_t ptp_record_received(void *recorder, const uint8_t *containers, size_t len)
{
    return record_all((struct ptp_recorder *)recorder, PTP_FROM_CAMERA, containers, len);
}

void ptp_list_recording(const uint8_t *s, size_t len, void (*put)(void *self, const uint8_t *text, size_t len), void *self)
{
    uint8_t text[4096]; /* room for a heading, for 32 lines, for an ending: neither is refused */
    uint64_t listed[PTP_LISTED_NUMBERS] = {0, 0, 0, 0};
    put(self, text, (size_t)ptp_write_heading(text, sizeof text));
    do {
        put(self, text, (size_t)ptp_list_window(s, len, true, listed[PTP_LISTED_PLACE], listed[PTP_LISTED_RECORDS], text, sizeof text, listed,
                                                PTP_LISTED_NUMBERS));
        s += listed[PTP_LISTED_USED];
        len -= listed[PTP_LISTED_USED];
    } while (len > 0 && !listed[PTP_LISTED_STOPPED]);
    put(self, text, (size_t)ptp_write_ending(listed[PTP_LISTED_RECORDS], listed[PTP_LISTED_PLACE], text, sizeof text));
}
