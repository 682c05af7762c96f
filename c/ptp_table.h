/* From object records to paths: a table made of records that come in any order. Plain C, in ptp_table.c, over the proved functions of ptp.h.
 *
 * Names go into paths as the camera gives them: `..`, slashes and newlines too, and two objects can have one path. */
#ifndef PTP_TABLE_H
#define PTP_TABLE_H

#include "ptp.h"

#ifdef __cplusplus
extern "C" {
#endif

/* An object: its handle, its parent's, and the bytes of one string for its name. */
struct ptp_object {
    uint32_t handle, parent;
    const uint8_t *name;
    size_t name_len;
};

enum ptp_built {
    PTP_BUILT,
    PTP_BUILT_TOO_MANY, /* over 1,023 objects: make a table for each storage, or for each folder */
    PTP_BUILT_TWICE,    /* two objects have this handle, or one has the root's */
    PTP_BUILT_ORPHAN,   /* no object is the parent of the one of this handle */
    PTP_BUILT_CIRCLE,   /* the object of this handle is its own ancestor */
    PTP_BUILT_NAME,     /* the name of the object of this handle is not one string */
    PTP_BUILT_ROOM      /* the names have no room */
};

/* Makes the table of objects that come in any order, below the root that `o` has as ptp_objects_begin leaves it: level by level, those of one
 * folder in their order. `handle` is the one that is told. What is not built leaves `o` with its root alone. */
enum ptp_built ptp_table_build(struct ptp_objects *o, const struct ptp_object *objects, size_t count, uint32_t *handle);

/* Whether a name in UTF-8 is safe as a file's: not empty, not `.` or `..`, without a slash, a backslash and control characters. */
bool ptp_is_plain_name(const uint8_t *name, size_t len);

#ifdef __cplusplus
}
#endif

#endif
