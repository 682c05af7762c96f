/* One exchange with a camera: a command sent, its answer gathered and found. Plain C, in ptp_camera.c, over the proved functions of ptp.h.
 *
 *     struct ptp_camera camera;
 *     struct ptp_reply reply;
 *     ptp_camera_begin(&camera, transport, made, sizeof made, came, sizeof came);
 *     if (ptp_camera_ask(&camera, PTP_COMMAND_GET_DEVICE_INFO, zeros, 3, &reply) == PTP_OUTCOME_OK)
 *         ptp_device_info(reply.payload, reply.payload_len, numbers, PTP_DEVICE_NUMBERS);
 */
#ifndef PTP_CAMERA_H
#define PTP_CAMERA_H

#include "ptp.h"

#ifdef __cplusplus
extern "C" {
#endif

/* What carries bytes to a camera and back. Each call gives 0, or an error of the caller's own. */
struct ptp_transport {
    void *self;
    /* Sends one container as one transfer. */
    int (*send)(void *self, const uint8_t *container, size_t len);
    /* Receives one transfer, or a part of one. The room is a multiple of 1,024 bytes: over USB no packet is cut. No bytes are a transfer too;
     * two such in a row end the exchange. */
    int (*receive)(void *self, uint8_t *room, size_t room_len, size_t *count);
};

/* Who hears what goes to a camera and comes from it; each call may be NULL. An answer below 0 is a refusal, and ends the exchange. */
struct ptp_listener {
    void *self;
    /* A command was sent: its Command, and where it has data its Data behind it. */
    int64_t (*sent)(void *self, const uint8_t *containers, size_t len);
    /* Whole containers came: those of one answer, with the events before and right behind its Response. */
    int64_t (*received)(void *self, const uint8_t *containers, size_t len);
    /* An event stood among them. */
    void (*event)(void *self, uint16_t code, const uint8_t *payload, size_t len);
    /* The camera was busy, for the n-th time: the command is made and sent anew when this returns. */
    void (*busy)(void *self, unsigned times);
};

/* How an exchange ended. */
enum ptp_outcome {
    PTP_OUTCOME_OK,        /* Response Ok */
    PTP_OUTCOME_RESPONSE,  /* another Response: its code and parameters */
    PTP_OUTCOME_REFUSED,   /* the command could not be made, the answer is none, or a listener refused: `why` is the refusal */
    PTP_OUTCOME_TRANSPORT, /* the transport failed: `why` is its error */
    PTP_OUTCOME_SILENT     /* two transfers in a row had no bytes */
};

struct ptp_reply {
    uint16_t code; /* the Response's */
    const uint8_t *payload; /* of the last Data container; no bytes without one, and where the Response is not Ok */
    size_t payload_len;
    uint32_t parameters[5];
    size_t parameter_count;
    int64_t why;
};

struct ptp_camera {
    struct ptp_transport transport;
    struct ptp_listener listener;
    uint32_t number;  /* the session's state, as ptp_command has it */
    unsigned retries; /* how often a command is sent again where the camera is busy; at first not at all */
    uint8_t *made;    /* room for a command and its data */
    size_t made_len;
    uint8_t *came;    /* room for what comes: answers lie there end to end, until ptp_camera_forget */
    size_t came_len, came_start, came_end;
};

/* A camera with a closed session, whom nobody hears. */
void ptp_camera_begin(struct ptp_camera *c, struct ptp_transport transport, uint8_t *made, size_t made_len, uint8_t *came, size_t came_len);

/* All room for answers is free again: no reply may be used any more. */
void ptp_camera_forget(struct ptp_camera *c);

/* A command without data, and one with it; and SetDevicePropValue of a value that the description allows, as ptp_set_value makes it. */
enum ptp_outcome ptp_camera_ask(struct ptp_camera *c, uint16_t code, const uint32_t *params, size_t params_len, struct ptp_reply *reply);
enum ptp_outcome ptp_camera_send(struct ptp_camera *c, uint16_t code, const uint32_t *params, size_t params_len, const uint8_t *data,
                                 size_t data_len, struct ptp_reply *reply);
enum ptp_outcome ptp_camera_set(struct ptp_camera *c, bool book, const uint8_t *description, size_t description_len, uint16_t code,
                                const uint8_t *value, size_t value_len, struct ptp_reply *reply);

/* A recording that listens: its two calls are a listener's `sent` and `received`. A container of more than 65,000 bytes, as a picture's, is no
 * record: it is left out and counted, and the Command before it and the Response behind it are kept. */
struct ptp_recorder {
    uint8_t *room;
    size_t room_len, held;
    size_t left_containers;
    uint64_t left_bytes;
};

int64_t ptp_record_sent(void *recorder, const uint8_t *containers, size_t len);
int64_t ptp_record_received(void *recorder, const uint8_t *containers, size_t len);

/* The whole listing of a recording, handed to `put` in pieces of whole lines. */
void ptp_list_recording(const uint8_t *s, size_t len, void (*put)(void *self, const uint8_t *text, size_t len), void *self);

#ifdef __cplusplus
}
#endif

#endif
