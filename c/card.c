/* A card from which frames are deleted: objects are added, frames deleted, and one more is added, for which it collects first. The paths after
 * each.
 *
 * rust/examples/card.rs is the same in Rust.
 */
#include "ptp.h"

#include <inttypes.h>
#include <stdio.h>

enum {
    NAMES_ROOM = 160, /* the first names take 154 bytes, so that there is no room behind them for the later one, of 27 */
    STRING_ROOM = 511,
    TEXT_ROOM = 4096,
    LONGEST_NAME = 254
};

/* An object's handle, the handle of what it is in, and its name. The storage itself is the root: its handle is 0, and it has no name. */
struct entry {
    uint32_t handle, folder;
    const char *name;
};

static const struct entry FIRST[] = {{1, 0, "DCIM"},         {2, 1, "100TRIP"}, {3, 2, "DSC_0001.JPG"}, {4, 2, "DSC_0002.JPG"},
                                     {5, 2, "DSC_0003.JPG"}, {6, 1, "101TRIP"}, {7, 6, "DSC_0004.JPG"}};
/* A frame, and a folder with the frame in it. */
static const uint32_t DELETED[] = {4, 6};
static const struct entry LATER = {8, 2, "DSC_0005.JPG"};

/* The string of a name in ASCII. */
static int64_t write_name(const char *name, uint8_t *out, size_t room)
{
    uint16_t units[LONGEST_NAME + 1] = {0};
    size_t len = 0;
    for (; name[len] && len <= LONGEST_NAME; len++)
        units[len] = (uint16_t)name[len];
    return ptp_write_text(units, len, out, room);
}

/* The place of the live object of this handle. */
static int64_t find(const struct ptp_objects *o, uint32_t handle)
{
    for (size_t place = 0; place < o->count; place++)
        if (o->marks[place] && o->handles[place] == handle)
            return (int64_t)place;
    return -(int64_t)PTP_PLACE;
}

/* Of the places that were used, those that are others now. */
static void print_moves(const struct ptp_objects *o, size_t used)
{
    for (size_t place = 0; place < used; place++)
        if (o->new_places[place] == PTP_GONE)
            printf("place %zu is gone\n", place);
        else if (o->new_places[place] != place)
            printf("place %zu is %u now\n", place, (unsigned)o->new_places[place]);
}

static int64_t add(struct ptp_objects *o, struct entry e)
{
    uint8_t string[STRING_ROOM];
    size_t used = o->count;
    int64_t parent = find(o, e.folder), len = write_name(e.name, string, STRING_ROOM);
    if (parent < 0 || len < 0)
        return parent < 0 ? parent : len;
    int64_t place = ptp_objects_add(o, (size_t)parent, e.handle, string, (size_t)len);
    if (place < 0)
        return place;
    printf("added %" PRIu32 " at place %" PRId64 "\n", e.handle, place);
    if ((size_t)place < used)
        print_moves(o, used);
    return 0;
}

static int64_t delete_handle(struct ptp_objects *o, uint32_t handle)
{
    int64_t place = find(o, handle);
    if (place < 0)
        return place;
    int64_t answer = ptp_objects_delete(o, (size_t)place);
    if (answer >= 0)
        printf("deleted %" PRIu32 "\n", handle);
    return answer;
}

/* There are as many paths as places in the walk. */
static int64_t show_paths(const struct ptp_objects *o)
{
    uint16_t places[PTP_PLACES];
    uint32_t ends[PTP_PLACES];
    uint8_t text[TEXT_ROOM];
    int64_t live = ptp_objects_walk(o, places, PTP_PLACES), answer = ptp_objects_paths(o, text, TEXT_ROOM, ends, PTP_PLACES);
    size_t start = 0;
    for (int64_t n = 0; answer >= 0 && n < live; start = ends[n++]) {
        printf("path /");
        fwrite(text + start, 1, ends[n] - start, stdout);
        printf("\n");
    }
    return answer;
}

/* What stands behind a path's last slash. */
static void print_name(const uint8_t *text, size_t start, size_t end)
{
    for (size_t at = start; at < end; at++)
        if (text[at] == '/')
            start = at + 1;
    fwrite(text + start, 1, end - start, stdout);
    printf("\n");
}

/* How deep a place is shown is the number of its parents; its name is the end of its path. */
static int64_t show_folders(const struct ptp_objects *o)
{
    uint16_t places[PTP_PLACES];
    uint32_t ends[PTP_PLACES];
    uint8_t text[TEXT_ROOM];
    int64_t count = ptp_objects_placed_folder_paths(o, text, TEXT_ROOM, ends, places, PTP_PLACES);
    size_t start = 0;
    for (int64_t n = 0; n < count; start = ends[n++]) {
        for (size_t place = places[n]; place > 0; place = o->parents[place])
            printf("  ");
        print_name(text, start, ends[n]);
    }
    return count;
}

static int64_t add_first(struct ptp_objects *o)
{
    int64_t answer = 0;
    for (size_t n = 0; answer >= 0 && n < sizeof FIRST / sizeof *FIRST; n++)
        answer = add(o, FIRST[n]);
    return answer < 0 ? answer : show_paths(o);
}

static int64_t delete_some(struct ptp_objects *o)
{
    int64_t answer = 0;
    for (size_t n = 0; answer >= 0 && n < sizeof DELETED / sizeof *DELETED; n++)
        answer = delete_handle(o, DELETED[n]);
    return answer < 0 ? answer : show_paths(o);
}

int main(void)
{
    static struct ptp_objects o;
    static uint8_t names[NAMES_ROOM];
    int64_t answer = ptp_objects_begin(&o, 0, names, NAMES_ROOM);
    if (answer >= 0)
        answer = add_first(&o);
    if (answer >= 0)
        answer = delete_some(&o);
    if (answer >= 0)
        answer = add(&o, LATER);
    if (answer >= 0)
        answer = show_paths(&o);
    if (answer >= 0)
        answer = show_folders(&o);
    if (answer < 0)
        fprintf(stderr, "refusal %d\n", (int)ptp_refusal_number(answer));
    return answer < 0 ? 1 : 0;
}
