/* Object tables. */
#ifndef REPLAY_TABLES_H
#define REPLAY_TABLES_H

#include "replay_words.h"

/* The table of a question. Where each of its lists has 1,024 places it is one in one piece, and the functions for that are asked; else its
 * lists are lent as they are. Its names stand in `first`. */
struct asked {
    uint32_t *handles, *ends;
    uint16_t *parents, *new_places;
    uint8_t *marks;
    uint16_t *first_child, *next_sibling; /* its links, where it keeps them */
    size_t handles_len, parents_len, ends_len, marks_len, count, names_len, first_len, next_len;
    struct ptp_objects *whole; /* NULL where it is none */
};

#define LENT(t) \
    (t)->handles, (t)->handles_len, (t)->parents, (t)->parents_len, (t)->ends, (t)->ends_len, (t)->marks, (t)->marks_len, (t)->count, first, \
        (t)->names_len

#define LINKED(t) LENT(t), (t)->first_child, (t)->first_len, (t)->next_sibling, (t)->next_len

/* The lists go into one piece. */
static void make_whole(struct asked *t)
{
    static struct ptp_objects o;
    memcpy(o.handles, t->handles, sizeof o.handles);
    memcpy(o.parents, t->parents, sizeof o.parents);
    memcpy(o.ends, t->ends, sizeof o.ends);
    memcpy(o.marks, t->marks, sizeof o.marks);
    o.count = t->count;
    o.names = first;
    o.names_len = t->names_len;
    t->handles = o.handles;
    t->parents = o.parents;
    t->ends = o.ends;
    t->marks = o.marks;
    t->new_places = o.new_places;
    t->whole = &o;
}

static void read_table(char *const *word, struct asked *t)
{
    static uint32_t handles[MOST_PARAMS], ends[MOST_PARAMS];
    static uint16_t parents[MOST_PARAMS], new_places[PTP_PLACES];
    static uint8_t marks[MOST_PARAMS];
    t->handles = handles;
    t->parents = parents;
    t->ends = ends;
    t->marks = marks;
    t->new_places = new_places;
    t->handles_len = read_list(word[1], handles, sizeof *handles);
    t->parents_len = read_list(word[2], parents, sizeof *parents);
    t->ends_len = read_list(word[3], ends, sizeof *ends);
    t->marks_len = read_list(word[4], marks, sizeof *marks);
    t->count = long_of(word[5]);
    t->names_len = read_bytes(word[6], first);
    t->whole = NULL;
    if (t->handles_len == PTP_PLACES && t->parents_len == PTP_PLACES && t->ends_len == PTP_PLACES && t->marks_len == PTP_PLACES)
        make_whole(t);
    memset(t->new_places, 0xA5, sizeof new_places);
}

/* The next words are its links; or there are none, and they are filled. */
static void read_links(char *const *word, struct asked *t)
{
    static uint16_t first_child[MOST_PARAMS], next_sibling[MOST_PARAMS];
    memset(first_child, 0xA5, sizeof first_child);
    memset(next_sibling, 0xA5, sizeof next_sibling);
    t->first_child = first_child;
    t->next_sibling = next_sibling;
    t->first_len = t->next_len = PTP_PLACES;
    if (word) {
        t->first_len = read_list(word[7], first_child, sizeof *first_child);
        t->next_len = read_list(word[8], next_sibling, sizeof *next_sibling);
    }
}

static void print_links(const struct asked *t)
{
    print_runs(t->first_child, sizeof *t->first_child, t->first_len);
    print_runs(t->next_sibling, sizeof *t->next_sibling, t->next_len);
}

static uint16_t places[PTP_PLACES];
static uint32_t stops[PTP_PLACES];

static void print_places(int64_t count)
{
    if (count < 0) {
        print_refusal("no", count, 0);
        return;
    }
    printf("ok");
    print_runs(places, sizeof *places, (size_t)count);
}

static int64_t walk(const struct asked *t)
{
    return t->whole ? ptp_objects_walk(t->whole, places, PTP_PLACES) : ptp_walk(LENT(t), places, PTP_PLACES);
}

static void path(const struct asked *t, size_t place, size_t room)
{
    memset(second, 0xA5, room);
    int64_t answer = t->whole ? ptp_objects_path(t->whole, place, second, room) : ptp_path(LENT(t), place, second, room);
    print_written(answer, second, room);
}

static int64_t folders(const struct asked *t)
{
    return t->whole ? ptp_objects_folders(t->whole, places, PTP_PLACES) : ptp_folders(LENT(t), places, PTP_PLACES);
}

static int64_t folder_paths(const struct asked *t, size_t room)
{
    return t->whole ? ptp_objects_folder_paths(t->whole, second, room, stops, PTP_PLACES)
                    : ptp_folder_paths(LENT(t), second, room, stops, PTP_PLACES);
}

static int64_t paths(const struct asked *t, size_t room)
{
    return t->whole ? ptp_objects_paths(t->whole, second, room, stops, PTP_PLACES) : ptp_paths(LENT(t), second, room, stops, PTP_PLACES);
}

/* All paths, by one of the three that give them. */
static void print_paths(const char *kind, const struct asked *t, size_t room)
{
    memset(second, 0xA5, room);
    memset(stops, 0xA5, sizeof stops);
    int64_t answer = strcmp(kind, "paths") == 0          ? paths(t, room)
                     : strcmp(kind, "folder-paths") == 0 ? folder_paths(t, room)
                                                         : ptp_linked_paths(LINKED(t), second, room, stops, PTP_PLACES);
    print_written(answer, second, room);
    if (answer >= 0)
        print_runs(stops, sizeof *stops, PTP_PLACES);
}

static void link_table(const struct asked *t)
{
    int64_t answer = ptp_table_link(LENT(t), t->first_child, t->first_len, t->next_sibling, t->next_len);
    if (answer < 0)
        print_refusal("no", answer, 0);
    else
        printf((size_t)answer == t->count ? "ok" : "? ok");
    print_links(t);
}

static int64_t deleted(const struct asked *t, size_t place)
{
    return t->whole ? ptp_objects_delete(t->whole, place) : ptp_table_delete(LENT(t), place);
}

static void print_deleted(const struct asked *t, int64_t answer)
{
    if (answer < 0)
        print_refusal("no", answer, 0);
    else
        printf((size_t)answer == t->count ? "ok" : "? ok");
    print_runs(t->marks, sizeof *t->marks, t->marks_len);
}

/* What a change answers, and all that was lent to it. The count that is kept must be the new one, or where it was refused the old one. */
static void print_changed(const struct asked *t, int64_t answer, size_t new_count)
{
    if (t->whole && t->whole->count != (answer < 0 ? t->count : new_count))
        printf("? ");
    if (answer < 0)
        print_refusal("no", answer, 0);
    else
        printf("ok %" PRId64, answer);
    print_runs(t->handles, sizeof *t->handles, t->handles_len);
    print_runs(t->parents, sizeof *t->parents, t->parents_len);
    print_runs(t->ends, sizeof *t->ends, t->ends_len);
    print_runs(t->marks, sizeof *t->marks, t->marks_len);
    print_bytes(first, t->names_len);
    print_runs(t->new_places, sizeof *t->new_places, PTP_PLACES);
}

static void collect(const struct asked *t)
{
    int64_t count = t->whole ? ptp_objects_collect(t->whole) : ptp_table_collect(LENT(t), t->new_places, PTP_PLACES);
    print_changed(t, count, (size_t)count);
}

/* Of a table that keeps its links: its lists are lent as they are. */
static void ask_linked(const char *kind, char *const *word, struct asked *t)
{
    t->whole = NULL;
    read_links(word, t);
    if (strcmp(kind, "linked-walk") == 0) {
        print_places(ptp_linked_walk(LINKED(t), places, PTP_PLACES));
    } else if (strcmp(kind, "linked-paths") == 0) {
        print_paths(kind, t, number_of(word[9]));
    } else if (strcmp(kind, "linked-delete") == 0) {
        print_deleted(t, ptp_linked_delete(LINKED(t), long_of(word[9])));
        print_links(t);
    } else if (strcmp(kind, "linked-collect") == 0) {
        print_changed(t, ptp_linked_collect(LINKED(t), t->new_places, PTP_PLACES), 0);
        print_links(t);
    } else {
        size_t len = read_bytes(word[11], second);
        print_changed(t, ptp_linked_add(LINKED(t), t->new_places, PTP_PLACES, long_of(word[9]), number_of(word[10]), second, len), 0);
        print_links(t);
    }
}

static void add(const struct asked *t, size_t parent, uint32_t handle, const char *name)
{
    size_t len = read_bytes(name, second);
    int64_t place = t->whole ? ptp_objects_add(t->whole, parent, handle, second, len)
                             : ptp_table_add(LENT(t), t->new_places, PTP_PLACES, parent, handle, second, len);
    print_changed(t, place, (size_t)place + 1);
}

static void ask_table(const char *kind, char *const *word)
{
    struct asked t;
    read_table(word, &t);
    read_links(NULL, &t);
    if (strncmp(kind, "linked-", 7) == 0)
        ask_linked(kind, word, &t);
    else if (strcmp(kind, "link") == 0)
        link_table(&t);
    else if (strcmp(kind, "walk") == 0)
        print_places(walk(&t));
    else if (strcmp(kind, "folders") == 0)
        print_places(folders(&t));
    else if (strcmp(kind, "path") == 0)
        path(&t, long_of(word[7]), number_of(word[8]));
    else if (strcmp(kind, "paths") == 0 || strcmp(kind, "folder-paths") == 0)
        print_paths(kind, &t, number_of(word[7]));
    else if (strcmp(kind, "delete") == 0)
        print_deleted(&t, deleted(&t, long_of(word[7])));
    else if (strcmp(kind, "collect") == 0)
        collect(&t);
    else
        add(&t, long_of(word[7]), number_of(word[8]), word[9]);
}

#endif
