/* From object records to paths: see ptp_table.h. Plain C. */
#include "ptp_table.h"

#include <string.h>

/* The number of the object of this handle; count where there is none. */
static size_t find(const struct ptp_object *objects, size_t count, uint32_t handle)
{
    size_t n = 0;
    while (n < count && objects[n].handle != handle)
        n++;
    return n;
}

static enum ptp_built check_handles(const struct ptp_objects *o, const struct ptp_object *objects, size_t count, uint32_t *handle)
{
    for (size_t n = 0; n < count; n++) {
        *handle = objects[n].handle;
        if (*handle == o->handles[0] || find(objects, n, *handle) < n)
            return PTP_BUILT_TWICE;
        if (objects[n].parent != o->handles[0] && find(objects, count, objects[n].parent) == count)
            return PTP_BUILT_ORPHAN;
    }
    return PTP_BUILT;
}

/* Each name is wholly one string, and all have room behind the root's. */
static enum ptp_built check_names(const struct ptp_objects *o, const struct ptp_object *objects, size_t count, uint32_t *handle)
{
    uint64_t text[PTP_PART_NUMBERS];
    size_t room = o->names_len - o->ends[0];
    for (size_t n = 0; n < count; n++) {
        *handle = objects[n].handle;
        if (ptp_text(objects[n].name, objects[n].name_len, 0, text, PTP_PART_NUMBERS) < 0 || text[PTP_PART_NEXT] != objects[n].name_len)
            return PTP_BUILT_NAME;
        if (room < objects[n].name_len)
            return PTP_BUILT_ROOM;
        room -= objects[n].name_len;
    }
    return PTP_BUILT;
}

/* Every object has a parent: after as many steps up as there are objects a way that has not come to the root is on a circle. */
static enum ptp_built check_circles(const struct ptp_objects *o, const struct ptp_object *objects, size_t count, uint32_t *handle)
{
    for (size_t n = 0; n < count; n++) {
        size_t above = n, steps = 0;
        while (steps < count && objects[above].parent != o->handles[0]) {
            above = find(objects, count, objects[above].parent);
            steps++;
        }
        *handle = objects[above].handle;
        if (steps == count)
            return PTP_BUILT_CIRCLE;
    }
    return PTP_BUILT;
}

static void put(struct ptp_objects *o, size_t parent, const struct ptp_object *object)
{
    size_t place = o->count++, start = o->ends[place - 1];
    memcpy(o->names + start, object->name, object->name_len);
    o->handles[place] = object->handle;
    o->parents[place] = (uint16_t)parent;
    o->ends[place] = (uint32_t)(start + object->name_len);
    o->marks[place] = 1;
}

enum ptp_built ptp_table_build(struct ptp_objects *o, const struct ptp_object *objects, size_t count, uint32_t *handle)
{
    if (count >= PTP_PLACES)
        return PTP_BUILT_TOO_MANY;
    enum ptp_built why = check_handles(o, objects, count, handle);
    if (why == PTP_BUILT)
        why = check_circles(o, objects, count, handle);
    if (why == PTP_BUILT)
        why = check_names(o, objects, count, handle);
    for (size_t parent = 0; why == PTP_BUILT && parent < o->count; parent++)
        for (size_t n = 0; n < count; n++)
            if (objects[n].parent == o->handles[parent])
                put(o, parent, &objects[n]);
    return why;
}

bool ptp_is_plain_name(const uint8_t *name, size_t len)
{
    bool plain = len > 0 && !(len == 1 && name[0] == '.') && !(len == 2 && name[0] == '.' && name[1] == '.');
    for (size_t n = 0; n < len; n++)
        /* of the control characters over 0x7F the second byte is 0x80 to 0x9F, behind 0xC2 */
        plain = plain && name[n] != '/' && name[n] != '\\' && name[n] >= 0x20 && name[n] != 0x7F &&
                !(name[n] == 0xC2 && n + 1 < len && name[n + 1] < 0xA0);
    return plain;
}
