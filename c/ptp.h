/* The byte layer of the picture transfer protocol: sixty-seven proved functions, in C.
 *
 * Each function answers how many numbers or bytes it gave, 0 or more; or a refusal, below 0: minus (its number, 1 to 22, and 256 times its
 * place), which ptp_refusal_number and ptp_refusal_place take apart. The place is that of the first byte of the field that failed, for
 * END and TEXT: an array's count, a string's count byte, a list's failing value. It counts in the bytes that were lent, of an object's
 * name in that name. A place from 2^55 - 1 on is told as that one, which no array reaches. Every other refusal has the place 0.
 *
 * A refusal changes nothing that was lent, and numbers and bytes past what was given are unchanged. Where several refusals would apply,
 * the first in the order that is named here is given. Every function ends, keeps no pointer, and neither allocates nor calls back.
 *
 * What a caller owes: a pointer and the length behind it are one array, whose length counts its items and not its bytes. A pointer is
 * aligned for its type and not NULL, also where the length is 0. What is lent for writing overlaps nothing else that is lent.
 *
 * In an answer's numbers a string is the START of its units and their COUNT, an array the START of its items and their COUNT, which lie
 * there end to end, each with its low byte first. A unit has two bytes, and so has an item of a dataset's array; a handle has four, an item
 * of a value's array as many as its type. A value or a payload is a START and a LENGTH in bytes. Each start is a place in the bytes that were
 * read. TAKEN is how many of these were read. A string's count byte stands right before its START, also where it has no units;
 * ptp_string_place is the place that ptp_utf8 and the like take. The serial of an entry PTP_FOR_ANY alone has no such byte. An array's count
 * stands in the four bytes before its START: ptp_array_place is the place that ptp_item takes.
 *
 * Three refusals of an answer mean that more bytes must come: END, SIZE and NOPHASE. ptp_needed tells how many. A dataset that is refused with
 * END was cut.
 *
 * A property's description has one of two layouts, which the caller names by `book`: true for PIMA 15740's, which has no IsEnable byte and
 * which ordinary cameras send; false for that of ptp 0.5.0, with that byte behind GetSet. There is no default, and nothing guesses: some bytes
 * fit both.
 *
 * Stack: a call takes a few kilobytes, but for ptp_path and the folder view, which go as deep as the table: a chain of 1,024 objects takes
 * 136,000 bytes for its last path and 126,000 for the view, as measured on x86-64.
 *
 * What is proved: every function that is declared here stands in the archive, and is proved. Plain C are the fifteen that are defined here.
 * Four are arithmetic on one number of an answer each: ptp_refusal_number, ptp_refusal_place, ptp_string_place and ptp_array_place. Eleven hand
 * the parts of a struct ptp_objects on: ptp_objects_begin, ptp_objects_walk, ptp_objects_path, ptp_objects_paths, ptp_objects_folders,
 * ptp_objects_folder_paths, ptp_objects_placed_paths, ptp_objects_placed_folder_paths, ptp_objects_delete, ptp_objects_collect and
 * ptp_objects_add. Plain C beside it: ptp_camera.h, one exchange with a camera; ptp_table.h, from object records to a table; ptp_codes.h, the
 * names of events, properties, formats and the like.
 */
#ifndef PTP_H
#define PTP_H

#include <stdbool.h>
#include <stddef.h>
#include <stdint.h>

#define PTP_VERSION_MAJOR 0
#define PTP_VERSION_MINOR 1
#define PTP_VERSION_PATCH 0
#define PTP_VERSION "0.1.0"

#ifdef __cplusplus
extern "C" {
#endif

enum ptp_refusal {
    PTP_END = 1,      /* the input stops before a field is whole */
    PTP_TEXT = 2,     /* a string's units hold an unpaired surrogate */
    PTP_TRAIL = 3,    /* bytes follow what must fill its place */
    PTP_KIND = 4,     /* a container's kind is not 1 to 4 */
    PTP_LENGTH = 5,   /* a container's length is below 12 */
    PTP_SIZE = 6,     /* a container's bytes stop before its announced length */
    PTP_TID = 7,      /* a container carries another transaction number */
    PTP_NOPHASE = 8,  /* the containers stop, and no Response was seen */
    PTP_ROOM = 9,     /* the output is shorter than the exact need */
    PTP_COUNT = 10,   /* over 254 units, over 5 parameters, over 4,294,967,295 items, a payload over 4,294,967,283 bytes, or bytes that are no
                         whole items */
    PTP_TABLE = 11,   /* the object table breaks its rule */
    PTP_PLACE = 12,   /* an index that does not exist, an object that is not live, the root where one is deleted, or a type code that is no
                         array's, or no integer's, where one is asked for */
    PTP_RECORD = 13,  /* a record's length is below 6, or its kind not 1 to 3, of one to be written not 1 or 2; a setting's length is
                         below 6, it is untidy, or its key stood before */
    PTP_LONG = 14,    /* a record's body is over 65,000 bytes */
    PTP_TYPE = 15,    /* another type than the description's, one that is none, or a range of anything but integers of 8 to 64 bits */
    PTP_VALUE = 16,   /* the description's form does not allow the value */
    PTP_EDITION = 17, /* a setting's kind is not one of the edition */
    PTP_FULL = 18,    /* 256 settings with other keys are held */
    PTP_TAKEN = 19,   /* 1,024 live objects are held */
    PTP_PACKET = 20,  /* a packet's kind is none of the five that a transaction has */
    PTP_FIELDS = 21,  /* a packet's length is not of whole fields, or the data is not as long as announced */
    PTP_TRANSACTION = 22 /* containers or packets are not one transaction */
};

/* Of an answer below 0: which refusal it is, one of the numbers above. Plain C. */
static inline enum ptp_refusal ptp_refusal_number(int64_t answer)
{
    return (enum ptp_refusal)((0 - (uint64_t)answer) % 256);
}

/* And where the field that failed begins, for END and TEXT. Plain C. */
static inline uint64_t ptp_refusal_place(int64_t answer)
{
    return (0 - (uint64_t)answer) / 256;
}

/* Of the START of a string's units: the place of the string. Plain C. */
static inline size_t ptp_string_place(uint64_t start)
{
    return start - 1;
}

/* Of the START of an array's items: the place of the array. Plain C. */
static inline size_t ptp_array_place(uint64_t start)
{
    return start - 4;
}

/* ---- datasets: the one that begins the bytes; bytes may follow it. Refusals, field by field: END, TEXT; then ROOM. ---- */

enum ptp_device_number {
    PTP_DEVICE_TAKEN,
    PTP_DEVICE_VERSION,
    PTP_DEVICE_VENDOR_EX_ID,
    PTP_DEVICE_VENDOR_EX_VERSION,
    PTP_DEVICE_VENDOR_EXTENSION_DESC_START,
    PTP_DEVICE_VENDOR_EXTENSION_DESC_COUNT,
    PTP_DEVICE_FUNCTIONAL_MODE,
    PTP_DEVICE_OPERATIONS_SUPPORTED_START,
    PTP_DEVICE_OPERATIONS_SUPPORTED_COUNT,
    PTP_DEVICE_EVENTS_SUPPORTED_START,
    PTP_DEVICE_EVENTS_SUPPORTED_COUNT,
    PTP_DEVICE_DEVICE_PROPERTIES_SUPPORTED_START,
    PTP_DEVICE_DEVICE_PROPERTIES_SUPPORTED_COUNT,
    PTP_DEVICE_CAPTURE_FORMATS_START,
    PTP_DEVICE_CAPTURE_FORMATS_COUNT,
    PTP_DEVICE_IMAGE_FORMATS_START,
    PTP_DEVICE_IMAGE_FORMATS_COUNT,
    PTP_DEVICE_MANUFACTURER_START,
    PTP_DEVICE_MANUFACTURER_COUNT,
    PTP_DEVICE_MODEL_START,
    PTP_DEVICE_MODEL_COUNT,
    PTP_DEVICE_DEVICE_VERSION_START,
    PTP_DEVICE_DEVICE_VERSION_COUNT,
    PTP_DEVICE_SERIAL_NUMBER_START,
    PTP_DEVICE_SERIAL_NUMBER_COUNT,
    PTP_DEVICE_NUMBERS /* 25: how many there are */
};

/* Numbers: ptp_device_number. */
int64_t ptp_device_info(const uint8_t *s, size_t s_len, uint64_t *out, size_t out_len);

enum ptp_object_number {
    PTP_OBJECT_TAKEN,
    PTP_OBJECT_STORAGE_ID,
    PTP_OBJECT_OBJECT_FORMAT,
    PTP_OBJECT_PROTECTION_STATUS,
    PTP_OBJECT_OBJECT_COMPRESSED_SIZE,
    PTP_OBJECT_THUMB_FORMAT,
    PTP_OBJECT_THUMB_COMPRESSED_SIZE,
    PTP_OBJECT_THUMB_PIX_WIDTH,
    PTP_OBJECT_THUMB_PIX_HEIGHT,
    PTP_OBJECT_IMAGE_PIX_WIDTH,
    PTP_OBJECT_IMAGE_PIX_HEIGHT,
    PTP_OBJECT_IMAGE_BIT_DEPTH,
    PTP_OBJECT_PARENT_OBJECT,
    PTP_OBJECT_ASSOCIATION_TYPE,
    PTP_OBJECT_ASSOCIATION_DESC,
    PTP_OBJECT_SEQUENCE_NUMBER,
    PTP_OBJECT_FILENAME_START,
    PTP_OBJECT_FILENAME_COUNT,
    PTP_OBJECT_CAPTURE_DATE_START,
    PTP_OBJECT_CAPTURE_DATE_COUNT,
    PTP_OBJECT_MODIFICATION_DATE_START,
    PTP_OBJECT_MODIFICATION_DATE_COUNT,
    PTP_OBJECT_KEYWORDS_START,
    PTP_OBJECT_KEYWORDS_COUNT,
    PTP_OBJECT_NUMBERS /* 24 */
};

/* Numbers: ptp_object_number. */
int64_t ptp_object_info(const uint8_t *s, size_t s_len, uint64_t *out, size_t out_len);

enum ptp_storage_number {
    PTP_STORAGE_TAKEN,
    PTP_STORAGE_STORAGE_TYPE,
    PTP_STORAGE_FILESYSTEM_TYPE,
    PTP_STORAGE_ACCESS_CAPABILITY,
    PTP_STORAGE_MAX_CAPACITY,
    PTP_STORAGE_FREE_SPACE_IN_BYTES,
    PTP_STORAGE_FREE_SPACE_IN_IMAGES,
    PTP_STORAGE_STORAGE_DESCRIPTION_START,
    PTP_STORAGE_STORAGE_DESCRIPTION_COUNT,
    PTP_STORAGE_VOLUME_LABEL_START,
    PTP_STORAGE_VOLUME_LABEL_COUNT,
    PTP_STORAGE_NUMBERS /* 11 */
};

/* Numbers: ptp_storage_number. */
int64_t ptp_storage_info(const uint8_t *s, size_t s_len, uint64_t *out, size_t out_len);

/* What PTP_PROP_FORM says. */
enum ptp_form {
    PTP_FORM_NONE = 0,  /* the six numbers after it are 0 */
    PTP_FORM_RANGE = 1, /* they are the minimum, the maximum and the step */
    PTP_FORM_LIST = 2   /* they are a list's: its bytes, how many values, and three of 0 */
};

enum ptp_prop_number {
    PTP_PROP_TAKEN,
    PTP_PROP_PROPERTY_CODE,
    PTP_PROP_DATA_TYPE,
    PTP_PROP_GET_SET,
    PTP_PROP_IS_ENABLE,
    PTP_PROP_FACTORY_DEFAULT_START,
    PTP_PROP_FACTORY_DEFAULT_LENGTH,
    PTP_PROP_CURRENT_START,
    PTP_PROP_CURRENT_LENGTH,
    PTP_PROP_FORM,
    PTP_PROP_MIN_START,
    PTP_PROP_MIN_LENGTH,
    PTP_PROP_MAX_START,
    PTP_PROP_MAX_LENGTH,
    PTP_PROP_STEP_START,
    PTP_PROP_STEP_LENGTH,
    PTP_PROP_NUMBERS, /* 16 */
    /* of a list: the bytes of all its values, and how many values they are */
    PTP_PROP_LIST_START = PTP_PROP_MIN_START,
    PTP_PROP_LIST_LENGTH = PTP_PROP_MIN_LENGTH,
    PTP_PROP_LIST_COUNT = PTP_PROP_MAX_START
};

enum { PTP_ENABLE_ABSENT = 256 }; /* PTP_PROP_IS_ENABLE in the book's layout; no byte is 256 */

/* Numbers: ptp_prop_number. */
int64_t ptp_prop_info(bool book, const uint8_t *s, size_t s_len, uint64_t *out, size_t out_len);

/* ---- the payloads of camera calls that must be filled: END, TRAIL where bytes follow, ROOM. Those of device and object info are the
 * datasets above. ---- */

enum ptp_part_number {
    PTP_PART_NEXT, /* the place after it */
    PTP_PART_START,
    PTP_PART_COUNT,
    PTP_PART_NUMBERS /* 3 */
};

/* Object handles, or storage IDs: items of four bytes. Numbers: ptp_part_number. */
int64_t ptp_handles(const uint8_t *s, size_t s_len, uint64_t *out, size_t out_len);

/* One number, and the place after it. */
enum ptp_one_number { PTP_ONE_NEXT, PTP_ONE_NUMBER, PTP_ONE_NUMBERS /* 2 */ };

/* How many objects there are. Numbers: ptp_one_number. */
int64_t ptp_object_count(const uint8_t *s, size_t s_len, uint64_t *out, size_t out_len);

/* A storage record; TEXT too. Numbers: ptp_storage_number. */
int64_t ptp_storage_payload(const uint8_t *s, size_t s_len, uint64_t *out, size_t out_len);

/* ---- values at a place of the bytes, by their type code ---- */

enum ptp_type {
    PTP_INT8 = 1, PTP_UINT8, PTP_INT16, PTP_UINT16, PTP_INT32, PTP_UINT32, PTP_INT64, PTP_UINT64, PTP_INT128, PTP_UINT128,
    PTP_ARRAY = 0x4000, /* with an integer's code: an array of that type */
    PTP_STRING = 0xFFFF /* any other code is UNDEF, which has no bytes */
};

/* What PTP_VALUE_KIND says. */
enum ptp_value_kind {
    PTP_VALUE_UNDEF = 0,
    PTP_VALUE_SIGNED = 1,   /* PTP_VALUE_FIRST is its word of 64 bits, two's complement */
    PTP_VALUE_UNSIGNED = 2, /* it is the number */
    PTP_VALUE_WIDE = 3,     /* of 128 bits: the low half, and PTP_VALUE_SECOND the high one */
    PTP_VALUE_ARRAY = 4,    /* the start of the items, and their count */
    PTP_VALUE_STRING = 5    /* the start of the units, and their count */
};

enum ptp_value_number {
    PTP_VALUE_NEXT, /* the place after it */
    PTP_VALUE_KIND,
    PTP_VALUE_FIRST,
    PTP_VALUE_SECOND,
    PTP_VALUE_NUMBERS /* 4 */
};

/* Numbers: ptp_value_number. Refusals: END, TEXT; ROOM. */
int64_t ptp_value(const uint8_t *s, size_t s_len, size_t at, uint16_t code, uint64_t *out, size_t out_len);

/* Item n, from 0, of the array at a place, as a value. Numbers: ptp_value_number. Refusals: PLACE for a code that is no array's; END; PLACE
 * where there is no such item; ROOM. One item costs no more than any other: the array's bytes are not gone through. */
int64_t ptp_item(const uint8_t *s, size_t s_len, size_t at, uint16_t code, size_t n, uint64_t *out, size_t out_len);

/* A string's units: where they stand. Numbers: ptp_part_number. Refusals: END, TEXT; ROOM. */
int64_t ptp_text(const uint8_t *s, size_t s_len, size_t at, uint64_t *out, size_t out_len);

/* Unit n, from 0, of the string at a place. Numbers: ptp_one_number. Refusals: END, TEXT; PLACE; ROOM. Each call reads the whole string: to
 * go through one, take its units by ptp_text. */
int64_t ptp_unit(const uint8_t *s, size_t s_len, size_t at, size_t n, uint64_t *out, size_t out_len);

/* The units of the string at a place, as numbers. Answers how many. Refusals: END, TEXT; ROOM. */
int64_t ptp_units(const uint8_t *s, size_t s_len, size_t at, uint16_t *out, size_t out_len);

/* The integers of one type of 8 to 64 bits that stand end to end from a place on, so many of them, each as PTP_VALUE_FIRST tells it: a list's
 * values from PTP_PROP_LIST_START on, an array's items from their START on. Answers how many. Refusals: PLACE for any other type; END of the
 * first that is cut; ROOM. */
int64_t ptp_list_numbers(const uint8_t *s, size_t s_len, size_t at, uint16_t code, size_t count, uint64_t *out, size_t out_len);

/* A string's length in UTF-8, and the string in UTF-8, which answers how many bytes. Numbers of the first: ptp_one_number, where
 * PTP_ONE_NEXT is the place after the string. Refusals: END, TEXT; ROOM. */
int64_t ptp_utf8_len(const uint8_t *s, size_t s_len, size_t at, uint64_t *out, size_t out_len);
int64_t ptp_utf8(const uint8_t *s, size_t s_len, size_t at, uint8_t *out, size_t out_len);

/* ---- writers: answer how many bytes ---- */

/* An integer of one of the types 1 to 10, by the low bytes of its word; of 128 bits by both. Refusals: PLACE for another type; ROOM. */
int64_t ptp_write_integer(uint16_t code, uint64_t low, uint64_t high, uint8_t *out, size_t out_len);

/* A string from its units, at most 254 of them. Refusals: TEXT, without a place; COUNT; ROOM. */
int64_t ptp_write_text(const uint16_t *units, size_t units_len, uint8_t *out, size_t out_len);

/* An array from its type code and the bytes of its items. Refusals: PLACE for a code that is no array's; COUNT where the bytes are no whole
 * items, or too many; ROOM. */
int64_t ptp_write_array(uint16_t code, const uint8_t *items, size_t items_len, uint8_t *out, size_t out_len);

/* The tidy spelling of the value, or of the record, that begins the bytes. Refusals: those of reading it, END and TEXT; ROOM. */
int64_t ptp_tidy_value(uint16_t code, const uint8_t *s, size_t s_len, uint8_t *out, size_t out_len);
int64_t ptp_tidy_device(const uint8_t *s, size_t s_len, uint8_t *out, size_t out_len);
int64_t ptp_tidy_object(const uint8_t *s, size_t s_len, uint8_t *out, size_t out_len);
int64_t ptp_tidy_storage(const uint8_t *s, size_t s_len, uint8_t *out, size_t out_len);

/* ---- what a panel asks of a property's description ---- */

enum ptp_list_value_number {
    PTP_LIST_VALUE_NEXT, /* the place after it */
    PTP_LIST_VALUE_START,
    PTP_LIST_VALUE_LENGTH,
    PTP_LIST_VALUE_NUMBERS /* 3 */
};

/* Value n, from 0, of the list of the description that begins the bytes. Numbers: ptp_list_value_number. Refusals: those of ptp_prop_info's
 * reading, END and TEXT; PLACE where there is no such value or no list; ROOM. Each call reads the description anew, and then a list of
 * strings or arrays up to its n-th: to go through a list, take ptp_next_value. */
int64_t ptp_list_value(bool book, const uint8_t *s, size_t s_len, size_t n, uint64_t *out, size_t out_len);

enum ptp_next_number {
    PTP_NEXT_PLACE, /* the place after it */
    PTP_NEXT_LEFT,  /* how many are left then */
    PTP_NEXT_KIND,  /* this and what follows as in ptp_value_number */
    PTP_NEXT_FIRST,
    PTP_NEXT_SECOND,
    PTP_NEXT_NUMBERS /* 5 */
};

/* The next of a list's values, from a place on with so many left: first PTP_PROP_LIST_START and PTP_PROP_LIST_COUNT, with
 * PTP_PROP_DATA_TYPE for the code; then the place and the number that the call before gave. Its bytes are those from the one place to the
 * other. Numbers: ptp_next_number. Answers 0 where the list has ended, and where no whole value stands at the place. All steps of a list
 * cost what its bytes cost; only those of UNDEF, up to 65,535, have none. Refusal: ROOM. */
int64_t ptp_next_value(const uint8_t *s, size_t s_len, uint16_t code, size_t at, uint16_t left, uint64_t *out, size_t out_len);

enum ptp_newer_number {
    PTP_NEWER_OF_PAYLOAD, /* 1: a part of the payload; 0: a part of the description */
    PTP_NEWER_START,
    PTP_NEWER_LENGTH,
    PTP_NEWER_NUMBERS /* 3 */
};

/* The whole payload where it is exactly one value of the description's type, else the description's current value; an empty part of the
 * description where that would be refused. Numbers: ptp_newer_number. Refusal: ROOM. */
int64_t ptp_newer_value(bool book, const uint8_t *description, size_t description_len, const uint8_t *payload, size_t payload_len,
                        uint64_t *out, size_t out_len);

/* The tidy spelling of the description that begins the bytes: answers how many bytes. Refusals: those of reading it, END and TEXT; ROOM. */
int64_t ptp_tidy_property(bool book, const uint8_t *s, size_t s_len, uint8_t *out, size_t out_len);

/* ---- transactions ---- */

/* A Command container with at most five parameters; where with_data is true, the Data container with the data right behind it, be they
 * no bytes; else the data are not looked at. Answers how many bytes. *number is the session's state: 0 where it is closed, as a fresh one
 * is, else its next transaction number. OpenSession (0x1002) is sent with 0, and makes it 1, whatever it was. A closed session sends any
 * other command with 0, and stays closed. An open one sends *number: CloseSession (0x1003) makes it 0, any other command one more, and 1
 * after 4,294,967,294 or above. The number that was sent stands in bytes 8 to 11 of the output, the lowest first. *end is where the
 * Command ends then, and the Data container begins: two transfers, and two records of a recording. Refusals, which leave *number and *end:
 * COUNT, ROOM. */
int64_t ptp_command(uint32_t *number, size_t *end, uint16_t code, const uint32_t *params, size_t params_len, const uint8_t *data,
                    size_t data_len, bool with_data, uint8_t *out, size_t out_len);

/* SetDevicePropValue of a value that the description allows: the Command with the property's code, and right behind it the Data container
 * with the value's tidy spelling. The description begins its bytes; the value is of this type, and fills its bytes. Answers how many bytes,
 * and counts *number on and tells *end as ptp_command does. Refusals, which leave both: END and TEXT of the description; TYPE; END, TEXT
 * and TRAIL of the value; VALUE; COUNT, ROOM. It looks at the form alone: a property that is read-only or disabled is sent too, and the camera
 * answers. Each call reads the description anew, and looks for the value in its list. */
int64_t ptp_set_value(bool book, uint32_t *number, size_t *end, const uint8_t *description, size_t description_len, uint16_t code,
                      const uint8_t *value, size_t value_len, uint8_t *out, size_t out_len);

enum ptp_answer_number {
    PTP_ANSWER_NEXT,          /* the place after the Response */
    PTP_ANSWER_CODE,          /* its code */
    PTP_ANSWER_PAYLOAD_START, /* the last Data container's payload: 0 and 0 without Data, and where the code is not PTP_RESPONSE_OK, below */
    PTP_ANSWER_PAYLOAD_LENGTH,
    PTP_ANSWER_NUMBERS /* 4 */
};

/* The answer to the command of this number, in containers that lie end to end. Numbers: ptp_answer_number. Refusals, container by container:
 * NOPHASE where no byte is left, END for six bytes, KIND, END for twelve, LENGTH, SIZE, TID; then ROOM. */
int64_t ptp_find_answer(const uint8_t *s, size_t s_len, uint32_t number, uint64_t *out, size_t out_len);

enum ptp_reply_number {
    PTP_REPLY_NEXT, /* the first four are those of an answer */
    PTP_REPLY_CODE,
    PTP_REPLY_PAYLOAD_START,
    PTP_REPLY_PAYLOAD_LENGTH,
    PTP_REPLY_PARAMETERS_START, /* the Response's parameters, of four bytes each */
    PTP_REPLY_PARAMETERS_COUNT,
    PTP_REPLY_NUMBERS /* 6 */
};

/* The same answer, with the Response's parameters. Numbers: ptp_reply_number. Refusals: those of ptp_find_answer. */
int64_t ptp_find_response(const uint8_t *s, size_t s_len, uint32_t number, uint64_t *out, size_t out_len);

/* How many bytes the answer to the command of this number still needs: the least that must follow before anything can be said of it. 0 exactly
 * where ptp_find_answer answers, or refuses with none of END, SIZE and NOPHASE. It refuses nothing. */
int64_t ptp_needed(const uint8_t *s, size_t s_len, uint32_t number);

/* ---- one transaction on the network: the packets of PTP/IP ---- */

/* What PTP_PACKET_KIND says. */
enum ptp_packet_kind {
    PTP_PACKET_REQUEST = 6,
    PTP_PACKET_RESPONSE = 7,
    PTP_PACKET_START_DATA = 9,
    PTP_PACKET_DATA = 10,
    PTP_PACKET_END_DATA = 12
};

/* 0 where the kind has none. */
enum ptp_packet_number {
    PTP_PACKET_NEXT, /* the place after it */
    PTP_PACKET_KIND,
    PTP_PACKET_PHASE,  /* of a request: 2 where data goes to the camera, 1 where none does */
    PTP_PACKET_CODE,   /* of a request and a response */
    PTP_PACKET_NUMBER, /* the transaction number, which each has */
    PTP_PACKET_TOTAL,  /* of start data: how many bytes of data follow in all */
    PTP_PACKET_START,  /* the parameters of a request and a response, the bytes of data and end data */
    PTP_PACKET_LENGTH,
    PTP_PACKET_NUMBERS /* 8 */
};

/* The packet at a place. Numbers: ptp_packet_number. Refusals: END for eight bytes, PACKET, FIELDS, END for the rest; ROOM. */
int64_t ptp_read_packet(const uint8_t *s, size_t s_len, size_t at, uint64_t *out, size_t out_len);

/* One transaction's containers, end to end, as packets: a Command, at most one Data with its code, a Response, all of one number, nothing
 * behind. All data goes in the end data packet. `to_camera` says where the data goes. Answers how many bytes. What stands before the response
 * packet does not depend on the Response: a controller puts any Response of its number behind what it sends, and sends the packets but the
 * last. Refusals: of a container END, KIND, END, LENGTH, SIZE; TRANSACTION, TID, ROOM. */
int64_t ptp_to_network(const uint8_t *s, size_t s_len, bool to_camera, uint8_t *out, size_t out_len);

/* One transaction's packets, end to end, as containers. The data may be cut into any data packets. Answers how many bytes. Refusals: of a packet
 * END, PACKET, FIELDS, END; TRANSACTION, FIELDS where the data is not as long as announced, TID, COUNT, ROOM. */
int64_t ptp_from_network(const uint8_t *s, size_t s_len, uint8_t *out, size_t out_len);

/* ---- an object table: handles, parents' places, live marks, and names end to end with the end of each ----
 *
 * Each of its four lists has PTP_PLACES places. The count, 1 to 1,024, says how many are used; the others are not looked at. Place 0 is the
 * root, with parent entry 0; every other parent entry is smaller than its own place. A mark of 0 is an object that is not live, every other
 * mark a live one: the root is live, and so is the parent of each live object. No end is below the one before it or past the names. Between
 * them stands wholly one string for each object, live or not; bytes may follow the last.
 *
 * The table's refusals: TABLE where a list has not 1,024 places or this rule is broken; then, name by name in table order, END, TEXT, TRAIL.
 * Each call checks the whole table first, every name of it. */

enum {
    PTP_PLACES = 1024, /* how many places a list of a table has */
    PTP_GONE = 65535   /* the new place of an object that has none */
};

/* The places of the live objects in walk order: by depth, then by the places from the root down. Answers how many. Refusals: the table's;
 * ROOM. */
int64_t ptp_walk(const uint32_t *handles, size_t handles_len, const uint16_t *parents, size_t parents_len, const uint32_t *ends,
                 size_t ends_len, const uint8_t *marks, size_t marks_len, size_t count, const uint8_t *names, size_t names_len,
                 uint16_t *places, size_t places_len);

/* The path of one live object, in UTF-8. Answers how many bytes. Refusals: the table's; PLACE where no live object stands; ROOM. For all
 * paths take ptp_paths. */
int64_t ptp_path(const uint32_t *handles, size_t handles_len, const uint16_t *parents, size_t parents_len, const uint32_t *ends,
                 size_t ends_len, const uint8_t *marks, size_t marks_len, size_t count, const uint8_t *names, size_t names_len, size_t place,
                 uint8_t *out, size_t out_len);

/* The paths of all live objects in walk order, in UTF-8, end to end, and the end of each. Answers how many bytes; there are as many ends as
 * live objects. Refusals: the table's; ROOM for either output. It is refused for ROOM only after the walk. The exact need can be known
 * before: the root's path is as long as its name by ptp_utf8_len; any other as its parent's, a slash where that is not empty, and its name. */
int64_t ptp_paths(const uint32_t *handles, size_t handles_len, const uint16_t *parents, size_t parents_len, const uint32_t *ends,
                  size_t ends_len, const uint8_t *marks, size_t marks_len, size_t count, const uint8_t *names, size_t names_len, uint8_t *out,
                  size_t out_len, uint32_t *out_ends, size_t out_ends_len);

/* The places of the live objects as a folder view: each folder, then all below it, before the next one at its level; siblings in rising places.
 * They are the walk's, in another order. Answers how many. Refusals: the table's; ROOM. A chain of 1,024 objects takes
 * 126,000 bytes of stack. */
int64_t ptp_folders(const uint32_t *handles, size_t handles_len, const uint16_t *parents, size_t parents_len, const uint32_t *ends,
                    size_t ends_len, const uint8_t *marks, size_t marks_len, size_t count, const uint8_t *names, size_t names_len,
                    uint16_t *places, size_t places_len);

/* The paths of all live objects in that order, as ptp_paths gives them in walk order: the same paths, and as many bytes. */
int64_t ptp_folder_paths(const uint32_t *handles, size_t handles_len, const uint16_t *parents, size_t parents_len, const uint32_t *ends,
                         size_t ends_len, const uint8_t *marks, size_t marks_len, size_t count, const uint8_t *names, size_t names_len,
                         uint8_t *out, size_t out_len, uint32_t *out_ends, size_t out_ends_len);

/* Ends the object at a place and all that stand below it: their marks become 0, and nothing else changes. Answers the count, which stays.
 * Refusals: the table's; PLACE for the root, and where no live object stands. */
int64_t ptp_table_delete(const uint32_t *handles, size_t handles_len, const uint16_t *parents, size_t parents_len, const uint32_t *ends,
                         size_t ends_len, uint8_t *marks, size_t marks_len, size_t count, const uint8_t *names, size_t names_len, size_t place);

/* Moves the live objects down in their order, with their names, and makes the mark of each 1. Answers the new count: from there on each list
 * keeps what it held, and so do the names past the last end. new_places, a list of 1,024 too, tells for each place below the old count the
 * new one, PTP_GONE for none; behind these it keeps what it held. The walk and the paths are then what they were, but for the places.
 * Refusals: the table's, TABLE also for new_places. Each object and each name byte is moved once at most. */
int64_t ptp_table_collect(uint32_t *handles, size_t handles_len, uint16_t *parents, size_t parents_len, uint32_t *ends, size_t ends_len,
                          uint8_t *marks, size_t marks_len, size_t count, uint8_t *names, size_t names_len, uint16_t *new_places,
                          size_t new_places_len);

/* Adds an object below the one at a place, with the bytes of one string for its name. It collects first exactly where the count is 1,024, or
 * fewer name bytes are left behind the last end than the name has. Answers its place: the count is one more then. That place is below the
 * old count exactly where it collected; new_places are told as above, and else each is its own. Refusals: those of ptp_table_collect; PLACE
 * for a parent that is not live; END, TEXT and TRAIL of the name; TAKEN with 1,024 live objects; ROOM where the names of the live objects
 * and the new one do not fit. It costs a check of the table, and where it must the collecting. */
int64_t ptp_table_add(uint32_t *handles, size_t handles_len, uint16_t *parents, size_t parents_len, uint32_t *ends, size_t ends_len,
                      uint8_t *marks, size_t marks_len, size_t count, uint8_t *names, size_t names_len, uint16_t *new_places,
                      size_t new_places_len, size_t parent, uint32_t handle, const uint8_t *name, size_t name_len);

/* A table in one piece: 13 KB, and room for the names elsewhere, 511 bytes for the longest. ptp_objects_begin gives it its root. */
struct ptp_objects {
    uint32_t handles[PTP_PLACES];
    uint16_t parents[PTP_PLACES];
    uint32_t ends[PTP_PLACES];
    uint8_t marks[PTP_PLACES];
    size_t count;
    uint8_t *names;
    size_t names_len;
    uint16_t new_places[PTP_PLACES]; /* what was told last */
};

/* A root alone, with a handle and without a name: what stands in no folder is below it. Refusal: ROOM where there is no byte for names. */
static inline int64_t ptp_objects_begin(struct ptp_objects *o, uint32_t handle, uint8_t *names, size_t names_len)
{
    const uint16_t no_units[1] = {0};
    int64_t end = ptp_write_text(no_units, 0, names, names_len);
    o->handles[0] = handle;
    o->parents[0] = 0;
    o->ends[0] = end < 0 ? 0 : (uint32_t)end;
    o->marks[0] = 1;
    o->count = 1;
    o->names = names;
    o->names_len = names_len;
    return end < 0 ? end : 0;
}

/* Each function of a table for one in one piece: it answers the same, and keeps the new count. Plain C. */
static inline int64_t ptp_objects_walk(const struct ptp_objects *o, uint16_t *places, size_t places_len)
{
    return ptp_walk(o->handles, PTP_PLACES, o->parents, PTP_PLACES, o->ends, PTP_PLACES, o->marks, PTP_PLACES, o->count, o->names,
                    o->names_len, places, places_len);
}

static inline int64_t ptp_objects_path(const struct ptp_objects *o, size_t place, uint8_t *out, size_t out_len)
{
    return ptp_path(o->handles, PTP_PLACES, o->parents, PTP_PLACES, o->ends, PTP_PLACES, o->marks, PTP_PLACES, o->count, o->names,
                    o->names_len, place, out, out_len);
}

static inline int64_t ptp_objects_paths(const struct ptp_objects *o, uint8_t *out, size_t out_len, uint32_t *out_ends, size_t out_ends_len)
{
    return ptp_paths(o->handles, PTP_PLACES, o->parents, PTP_PLACES, o->ends, PTP_PLACES, o->marks, PTP_PLACES, o->count, o->names,
                     o->names_len, out, out_len, out_ends, out_ends_len);
}

static inline int64_t ptp_objects_folders(const struct ptp_objects *o, uint16_t *places, size_t places_len)
{
    return ptp_folders(o->handles, PTP_PLACES, o->parents, PTP_PLACES, o->ends, PTP_PLACES, o->marks, PTP_PLACES, o->count, o->names,
                       o->names_len, places, places_len);
}

static inline int64_t ptp_objects_folder_paths(const struct ptp_objects *o, uint8_t *out, size_t out_len, uint32_t *out_ends,
                                               size_t out_ends_len)
{
    return ptp_folder_paths(o->handles, PTP_PLACES, o->parents, PTP_PLACES, o->ends, PTP_PLACES, o->marks, PTP_PLACES, o->count, o->names,
                            o->names_len, out, out_len, out_ends, out_ends_len);
}

/* All paths, each with its place: answers how many there are, each with its end in the bytes and its place in the table, `room` of both. */
static inline int64_t ptp_objects_placed_paths(const struct ptp_objects *o, uint8_t *out, size_t out_len, uint32_t *out_ends, uint16_t *places,
                                               size_t room)
{
    int64_t len = ptp_objects_paths(o, out, out_len, out_ends, room);
    return len < 0 ? len : ptp_objects_walk(o, places, room); /* as many places as ends: there is room for both or for neither */
}

/* The same of the folder view. */
static inline int64_t ptp_objects_placed_folder_paths(const struct ptp_objects *o, uint8_t *out, size_t out_len, uint32_t *out_ends,
                                                      uint16_t *places, size_t room)
{
    int64_t len = ptp_objects_folder_paths(o, out, out_len, out_ends, room);
    return len < 0 ? len : ptp_objects_folders(o, places, room);
}

static inline int64_t ptp_objects_delete(struct ptp_objects *o, size_t place)
{
    return ptp_table_delete(o->handles, PTP_PLACES, o->parents, PTP_PLACES, o->ends, PTP_PLACES, o->marks, PTP_PLACES, o->count, o->names,
                            o->names_len, place);
}

static inline int64_t ptp_objects_collect(struct ptp_objects *o)
{
    int64_t count = ptp_table_collect(o->handles, PTP_PLACES, o->parents, PTP_PLACES, o->ends, PTP_PLACES, o->marks, PTP_PLACES, o->count,
                                      o->names, o->names_len, o->new_places, PTP_PLACES);
    if (count >= 0)
        o->count = (size_t)count;
    return count;
}

static inline int64_t ptp_objects_add(struct ptp_objects *o, size_t parent, uint32_t handle, const uint8_t *name, size_t name_len)
{
    int64_t place = ptp_table_add(o->handles, PTP_PLACES, o->parents, PTP_PLACES, o->ends, PTP_PLACES, o->marks, PTP_PLACES, o->count,
                                  o->names, o->names_len, o->new_places, PTP_PLACES, parent, handle, name, name_len);
    if (place >= 0)
        o->count = (size_t)place + 1;
    return place;
}

/* ---- a table that keeps its links: of each place its first child, and the next below the same parent ----
 *
 * Two lists more, with PTP_PLACES places each. Of a live place `first` is its lowest live child, `next` the next higher live place with the same
 * parent; 0 is none. Everything else in them is 0, so a table has one pair of links; those of a root alone are 0 throughout. Each function answers
 * and refuses as the one without links does, and TABLE also where the links are not the table's own. It goes by the links, and leaves those of the
 * table that it leaves. */

/* Writes the links of a table. Answers the count. Refusals: the table's, TABLE also where a list of links has not 1,024 places. */
int64_t ptp_table_link(const uint32_t *handles, size_t handles_len, const uint16_t *parents, size_t parents_len, const uint32_t *ends,
                       size_t ends_len, const uint8_t *marks, size_t marks_len, size_t count, const uint8_t *names, size_t names_len,
                       uint16_t *first, size_t first_len, uint16_t *next, size_t next_len);

/* As ptp_walk. */
int64_t ptp_linked_walk(const uint32_t *handles, size_t handles_len, const uint16_t *parents, size_t parents_len, const uint32_t *ends,
                        size_t ends_len, const uint8_t *marks, size_t marks_len, size_t count, const uint8_t *names, size_t names_len,
                        const uint16_t *first, size_t first_len, const uint16_t *next, size_t next_len,
                        uint16_t *places, size_t places_len);

/* As ptp_paths. */
int64_t ptp_linked_paths(const uint32_t *handles, size_t handles_len, const uint16_t *parents, size_t parents_len, const uint32_t *ends,
                         size_t ends_len, const uint8_t *marks, size_t marks_len, size_t count, const uint8_t *names, size_t names_len,
                         const uint16_t *first, size_t first_len, const uint16_t *next, size_t next_len,
                         uint8_t *out, size_t out_len, uint32_t *out_ends, size_t out_ends_len);

/* As ptp_table_delete. */
int64_t ptp_linked_delete(const uint32_t *handles, size_t handles_len, const uint16_t *parents, size_t parents_len, const uint32_t *ends,
                          size_t ends_len, uint8_t *marks, size_t marks_len, size_t count, const uint8_t *names, size_t names_len,
                          uint16_t *first, size_t first_len, uint16_t *next, size_t next_len, size_t place);

/* As ptp_table_collect. */
int64_t ptp_linked_collect(uint32_t *handles, size_t handles_len, uint16_t *parents, size_t parents_len, uint32_t *ends, size_t ends_len,
                           uint8_t *marks, size_t marks_len, size_t count, uint8_t *names, size_t names_len, uint16_t *first, size_t first_len,
                           uint16_t *next, size_t next_len, uint16_t *new_places, size_t new_places_len);

/* As ptp_table_add. */
int64_t ptp_linked_add(uint32_t *handles, size_t handles_len, uint16_t *parents, size_t parents_len, uint32_t *ends, size_t ends_len,
                       uint8_t *marks, size_t marks_len, size_t count, uint8_t *names, size_t names_len, uint16_t *first, size_t first_len,
                       uint16_t *next, size_t next_len, uint16_t *new_places, size_t new_places_len, size_t parent, uint32_t handle,
                       const uint8_t *name, size_t name_len);

/* ---- settings: a row of entries, a property's value each, for a camera of one serial or for any ----
 *
 * An entry, all numbers with the low byte first: its length in 4 bytes, these included, its kind in 2; the vendor extension in 4, the
 * property in 2, in kind 17 the camera's serial, a tidy string; the type in 2, and a tidy value. `second` names the edition: false is the
 * first, which knows kind 16 alone, true the second, which knows both. */

/* What PTP_ENTRY_KIND and PTP_KEPT_KIND say. */
enum ptp_entry_kind {
    PTP_FOR_ANY = 16, /* for any camera: no serial stands in its bytes; it has no units, and its START is no string's */
    PTP_FOR_ONE = 17  /* for the camera of this serial */
};

/* How many entries the row has; no bytes are a row of none. Refusals, entry by entry: END for six bytes, EDITION, RECORD for a length below 6,
 * END for the rest; END and TEXT of the fields in their order; TRAIL; RECORD for an untidy string, and for a key that stood before; FULL.
 * Each key is looked for among those before it: twice as many entries cost up to four times as much. */
int64_t ptp_settings_check(bool second, const uint8_t *row, size_t row_len);

enum ptp_entry_number {
    PTP_ENTRY_NEXT, /* the place after it */
    PTP_ENTRY_KIND,
    PTP_ENTRY_VENDOR,
    PTP_ENTRY_PROPERTY,
    PTP_ENTRY_SERIAL_START,
    PTP_ENTRY_SERIAL_COUNT,
    PTP_ENTRY_TYPE,
    PTP_ENTRY_VALUE_START,
    PTP_ENTRY_VALUE_LENGTH,
    PTP_ENTRY_NUMBERS /* 9 */
};

/* The entry that starts at a place. Numbers: ptp_entry_number. Refusals: those of one entry, in the same order; ROOM. */
int64_t ptp_settings_entry(bool second, const uint8_t *s, size_t s_len, size_t at, uint64_t *out, size_t out_len);

enum ptp_kept_number {
    PTP_KEPT_KIND,
    PTP_KEPT_TYPE,
    PTP_KEPT_VALUE_START,
    PTP_KEPT_VALUE_LENGTH,
    PTP_KEPT_NUMBERS /* 4 */
};

/* What is kept of a property: in the second edition for the camera of this serial, by its units, where there is such an entry, else for any.
 * Numbers: ptp_kept_number; answers 0 where nothing is kept. Refusals: those of the row; ROOM. Each call checks the whole row first: to look
 * up many, go through it once by ptp_settings_entry. */
int64_t ptp_settings_find(bool second, const uint8_t *row, size_t row_len, uint32_t vendor, uint16_t property, const uint16_t *serial,
                          size_t serial_len, uint64_t *out, size_t out_len);

/* The row with the entry in place of the one that has its key, or last. Answers how many bytes. Refusals: those of the row; those of the
 * entry, TRAIL also where bytes follow it; FULL where 256 others are held; ROOM. Each call checks the whole row first. */
int64_t ptp_settings_store(bool second, const uint8_t *row, size_t row_len, const uint8_t *entry, size_t entry_len, uint8_t *out,
                           size_t out_len);

/* The one spelling of an entry, for ptp_settings_store: of kind PTP_FOR_ONE with this serial, by its units as ptp_units gives them, where `own` is
 * true; else PTP_FOR_ANY, and the serial is not looked at. Answers how many bytes. Refusals: TEXT for a serial whose surrogates do not pair,
 * without a place; COUNT for one of over 254 units; RECORD where the value's bytes are not one tidy value of the type; ROOM. */
int64_t ptp_settings_write(uint32_t vendor, uint16_t property, uint16_t code, const uint8_t *value, size_t value_len, bool own,
                           const uint16_t *serial, size_t serial_len, uint8_t *out, size_t out_len);

/* The row without the entry of this key; the row as it stands where none has it. Answers how many bytes. Refusals: those of the row; ROOM. */
int64_t ptp_settings_remove(bool second, const uint8_t *row, size_t row_len, uint32_t vendor, uint16_t property, bool own,
                            const uint16_t *serial, size_t serial_len, uint8_t *out, size_t out_len);

/* ---- a recording ---- */

/* What PTP_RECORD_KIND says. */
enum ptp_record_kind {
    PTP_FROM_CAMERA = 1,
    PTP_TO_CAMERA = 2,
    PTP_NOTE = 3 /* of old recordings: read, and no more written; the container's five numbers are 0 */
};

enum ptp_container_kind { PTP_CONTAINER_COMMAND = 1, PTP_CONTAINER_DATA = 2, PTP_CONTAINER_RESPONSE = 3, PTP_CONTAINER_EVENT = 4 };

enum ptp_container_number {
    PTP_CONTAINER_NEXT, /* the place after it */
    PTP_CONTAINER_KIND,
    PTP_CONTAINER_CODE,
    PTP_CONTAINER_NUMBER,
    PTP_CONTAINER_PAYLOAD_START,
    PTP_CONTAINER_PAYLOAD_LENGTH,
    PTP_CONTAINER_NUMBERS /* 6 */
};

/* The container at a place, an event's too. Numbers: ptp_container_number. Refusals: END for six bytes, KIND, END for twelve, LENGTH, SIZE;
 * ROOM. */
int64_t ptp_read_container(const uint8_t *s, size_t s_len, size_t at, uint64_t *out, size_t out_len);

/* A container. Refusals: KIND, COUNT, ROOM. */
int64_t ptp_write_container(uint16_t kind, uint16_t code, uint32_t number, const uint8_t *payload, size_t payload_len, uint8_t *out,
                            size_t out_len);

enum ptp_record_number {
    PTP_RECORD_TAKEN,
    PTP_RECORD_KIND,
    PTP_RECORD_BODY_START,
    PTP_RECORD_BODY_LENGTH,
    PTP_RECORD_CONTAINER_KIND,
    PTP_RECORD_CODE,
    PTP_RECORD_NUMBER,
    PTP_RECORD_PAYLOAD_START,
    PTP_RECORD_PAYLOAD_LENGTH,
    PTP_RECORD_NUMBERS /* 9 */
};

/* The record that begins the bytes. Numbers: ptp_record_number. Refusals: END for six bytes, RECORD, LONG, END for the body; of its container
 * END, KIND, END, LENGTH, SIZE, TRAIL; ROOM. */
int64_t ptp_read_record(const uint8_t *s, size_t s_len, uint64_t *out, size_t out_len);

enum ptp_recording_number { PTP_RECORDING_RECORDS, PTP_RECORDING_NUMBERS /* 1 */ };

/* How many records a recording has, from its first byte to its last; no bytes are a recording of none. Then ptp_read_record reads each, one
 * behind the other. Numbers: ptp_recording_number. Refusals: those of its first refused record, END by its place in s; ROOM. */
int64_t ptp_read_recording(const uint8_t *s, size_t s_len, uint64_t *out, size_t out_len);

/* A record of kind PTP_FROM_CAMERA or PTP_TO_CAMERA, whose body is one container. Refusals: RECORD, LONG; of the container END, KIND, END,
 * LENGTH, SIZE, TRAIL; ROOM. */
int64_t ptp_write_record(uint16_t kind, const uint8_t *body, size_t body_len, uint8_t *out, size_t out_len);

/* The listing's first line. Refusal: ROOM. */
int64_t ptp_write_heading(uint8_t *out, size_t out_len);

enum ptp_listed_number {
    PTP_LISTED_USED,    /* how many bytes of the window were listed */
    PTP_LISTED_PLACE,   /* the place and the number of records after them, which the next call is given */
    PTP_LISTED_RECORDS,
    PTP_LISTED_STOPPED, /* 1: a refused record ended the listing */
    PTP_LISTED_NUMBERS  /* 4 */
};

/* A window holds the longest record, 65,006 bytes, or nothing is listed of one that long. */

/* The lines of the whole records of a window of a recording, as many as have room; a line has at most 128 bytes, and with less room than
 * that nothing is listed. `last` says that the recording ends with the window. Answers how many bytes; the counts are ptp_listed_number's.
 * Refusal: ROOM for the counts. */
int64_t ptp_list_window(const uint8_t *s, size_t s_len, bool last, uint64_t place, uint64_t records, uint8_t *out, size_t out_len,
                        uint64_t *counts, size_t counts_len);

/* The listing's last line. Refusal: ROOM. */
int64_t ptp_write_ending(uint64_t records, uint64_t place, uint8_t *out, size_t out_len);

enum ptp_left_number { PTP_LEFT_RECORDS, PTP_LEFT_BYTES, PTP_LEFT_NUMBERS /* 2 */ };

/* A whole recording without its notes: answers how many bytes, and in `left`, by ptp_left_number, how many records and bytes, headers
 * included, were left out. Refusals: those of its first refused record, END by its place in s; ROOM for either output. A refused copy
 * writes to neither. */
int64_t ptp_copy_recording(const uint8_t *s, size_t s_len, uint8_t *out, size_t out_len, uint64_t *left, size_t left_len);

enum ptp_mended_number {
    PTP_MENDED_STRETCHES, /* how many stretches were dropped */
    PTP_MENDED_NUMBERS    /* 1 */
};

/* A damaged recording mended: every record that can still be read, from the front, is kept as it stands, notes too; where none stands, one
 * byte is dropped. Bytes in damage that look like a record are kept. Answers how many bytes; the dropped stretches, of which no two touch,
 * are told in rising order by their starts in s and their lengths; the counts are ptp_mended_number's. Refusal: ROOM for any of the four
 * outputs, and nothing is written; the starts and the lengths have room for as many stretches as the shorter of the two. */
int64_t ptp_mend_recording(const uint8_t *s, size_t s_len, uint8_t *out, size_t out_len, uint64_t *starts, size_t starts_len,
                           uint64_t *lengths, size_t lengths_len, uint64_t *counts, size_t counts_len);

/* ---- the names of codes ---- */

enum ptp_response {
    PTP_RESPONSE_UNDEFINED = 0x2000,
    PTP_RESPONSE_OK = 0x2001,
    PTP_RESPONSE_GENERAL_ERROR = 0x2002,
    PTP_RESPONSE_SESSION_NOT_OPEN = 0x2003,
    PTP_RESPONSE_INVALID_TRANSACTION_ID = 0x2004,
    PTP_RESPONSE_OPERATION_NOT_SUPPORTED = 0x2005,
    PTP_RESPONSE_PARAMETER_NOT_SUPPORTED = 0x2006,
    PTP_RESPONSE_INCOMPLETE_TRANSFER = 0x2007,
    PTP_RESPONSE_INVALID_STORAGE_ID = 0x2008,
    PTP_RESPONSE_INVALID_OBJECT_HANDLE = 0x2009,
    PTP_RESPONSE_DEVICE_PROP_NOT_SUPPORTED = 0x200A,
    PTP_RESPONSE_INVALID_OBJECT_FORMAT_CODE = 0x200B,
    PTP_RESPONSE_STORE_FULL = 0x200C,
    PTP_RESPONSE_OBJECT_WRITE_PROTECTED = 0x200D,
    PTP_RESPONSE_STORE_READ_ONLY = 0x200E,
    PTP_RESPONSE_ACCESS_DENIED = 0x200F,
    PTP_RESPONSE_NO_THUMBNAIL_PRESENT = 0x2010,
    PTP_RESPONSE_SELF_TEST_FAILED = 0x2011,
    PTP_RESPONSE_PARTIAL_DELETION = 0x2012,
    PTP_RESPONSE_STORE_NOT_AVAILABLE = 0x2013,
    PTP_RESPONSE_SPECIFICATION_BY_FORMAT_UNSUPPORTED = 0x2014,
    PTP_RESPONSE_NO_VALID_OBJECT_INFO = 0x2015,
    PTP_RESPONSE_INVALID_CODE_FORMAT = 0x2016,
    PTP_RESPONSE_UNKNOWN_VENDOR_CODE = 0x2017,
    PTP_RESPONSE_CAPTURE_ALREADY_TERMINATED = 0x2018,
    PTP_RESPONSE_DEVICE_BUSY = 0x2019,
    PTP_RESPONSE_INVALID_PARENT_OBJECT = 0x201A,
    PTP_RESPONSE_INVALID_DEVICE_PROP_FORMAT = 0x201B,
    PTP_RESPONSE_INVALID_DEVICE_PROP_VALUE = 0x201C,
    PTP_RESPONSE_INVALID_PARAMETER = 0x201D,
    PTP_RESPONSE_SESSION_ALREADY_OPEN = 0x201E,
    PTP_RESPONSE_TRANSACTION_CANCELLED = 0x201F,
    PTP_RESPONSE_SPECIFICATION_OF_DESTINATION_UNSUPPORTED = 0x2020
};

/* In place of a folder's handle: those that stand in no folder, and all objects of the storage. Macros, since no enum of C99 has the first. */
#define PTP_HANDLE_ROOTS UINT32_C(0xFFFFFFFF)
#define PTP_HANDLE_ALL UINT32_C(0)

/* Behind a camera call its parameters, as ptp 0.5.0 sends them, and what reads the payload of its answer. */
enum ptp_command_code {
    PTP_COMMAND_UNDEFINED = 0x1000,
    PTP_COMMAND_GET_DEVICE_INFO = 0x1001,    /* 0, 0, 0: ptp_device_info */
    PTP_COMMAND_OPEN_SESSION = 0x1002,       /* 3, 0, 0: opens session 3 */
    PTP_COMMAND_CLOSE_SESSION = 0x1003,      /* none */
    PTP_COMMAND_GET_STORAGE_IDS = 0x1004,    /* none: ptp_handles */
    PTP_COMMAND_GET_STORAGE_INFO = 0x1005,   /* storage: ptp_storage_payload */
    PTP_COMMAND_GET_NUM_OBJECTS = 0x1006,    /* storage; format, or 0 for any; a folder's handle, or one of the two above: ptp_object_count */
    PTP_COMMAND_GET_OBJECT_HANDLES = 0x1007, /* the same three: ptp_handles */
    PTP_COMMAND_GET_OBJECT_INFO = 0x1008,    /* handle: ptp_object_info */
    PTP_COMMAND_GET_OBJECT = 0x1009,         /* handle: the payload is the object */
    PTP_COMMAND_GET_THUMB = 0x100A,
    PTP_COMMAND_DELETE_OBJECT = 0x100B,
    PTP_COMMAND_SEND_OBJECT_INFO = 0x100C,
    PTP_COMMAND_SEND_OBJECT = 0x100D,
    PTP_COMMAND_INITIATE_CAPTURE = 0x100E,
    PTP_COMMAND_FORMAT_STORE = 0x100F,
    PTP_COMMAND_RESET_DEVICE = 0x1010,
    PTP_COMMAND_SELF_TEST = 0x1011,
    PTP_COMMAND_SET_OBJECT_PROTECTION = 0x1012,
    PTP_COMMAND_POWER_DOWN = 0x1013,
    PTP_COMMAND_GET_DEVICE_PROP_DESC = 0x1014,  /* property: ptp_prop_info */
    PTP_COMMAND_GET_DEVICE_PROP_VALUE = 0x1015, /* property: ptp_value, or ptp_newer_value beside the description */
    PTP_COMMAND_SET_DEVICE_PROP_VALUE = 0x1016, /* property, and the value as data: ptp_set_value makes it */
    PTP_COMMAND_RESET_DEVICE_PROP_VALUE = 0x1017,
    PTP_COMMAND_TERMINATE_OPEN_CAPTURE = 0x1018,
    PTP_COMMAND_MOVE_OBJECT = 0x1019,
    PTP_COMMAND_COPY_OBJECT = 0x101A,
    PTP_COMMAND_GET_PARTIAL_OBJECT = 0x101B,
    PTP_COMMAND_INITIATE_OPEN_CAPTURE = 0x101C
};

/* Where a name stands in the name bytes: its start times 65,536, and its length; 0 for a code without a name. */
int64_t ptp_response_place(uint16_t code);
int64_t ptp_command_place(uint16_t code);

enum { PTP_NAME_BYTES = 975 };

/* All name bytes. Refusal: ROOM. */
int64_t ptp_name_bytes(uint8_t *out, size_t out_len);

#ifdef __cplusplus
}
#endif

#endif
