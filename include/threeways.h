/* Three routes to the root of a control network: the calls of a session and of a report on ducts, for C99 and C++ on x86-64. Link with libthreeways_c.a.
 * docs/FIRMWARE.md has memory, stack and cost; docs/USER.md says what each refusal means and what to do.
 *
 * Proved, of each function of the archive: for any contents of session and report and any arguments it ends, does what the definition of
 * its call says, and reads and writes nothing but what it is lent; after a refusal nothing has changed, outputs included. In a list of
 * ears each ear counts as a call of its own: the accepted ones stay, and their count is written, also where the next is refused.
 *
 * Trusted, in C: that the wrappers at the end of this file pass the parts of the structs in the order of the prototypes; that every
 * pointer is good for the count beside it; that what you lend (links, ear, list, out, report, outputs) lies outside the session and does not
 * overlap; that a session or a report has one caller at a time; and that there is stack enough (docs/FIRMWARE.md).
 */
#ifndef THREEWAYS_H
#define THREEWAYS_H

#include <stddef.h>
#include <stdint.h>

#ifdef __cplusplus
extern "C" {
#endif

enum {
    THREEWAYS_MIN_SWITCHES = 4,
    THREEWAYS_MAX_SWITCHES = 1024,
    THREEWAYS_MIN_LINKS = 6,
    THREEWAYS_MAX_LINKS = 4096,
    THREEWAYS_DUCTS = 256,                          /* ducts have the numbers 1 to 255; 0 is none */
    THREEWAYS_MAX_SESSIONS = 65535                  /* that one report adds */
};

/* The stage of a session; any other number is read as empty. */
enum { THREEWAYS_EMPTY = 0, THREEWAYS_OPEN = 1, THREEWAYS_CLOSED = 2 };

/* A link record: the two switches that it joins, and the number of the duct that it lies in, 1 to 255, or 0 for none. */
struct threeways_link {
    uint16_t a, b;
    uint8_t duct;
};

typedef char threeways_link_has_6_bytes[sizeof(struct threeways_link) == 6 ? 1 : -1];

/* A session: plain numbers, 34,832 bytes. Copying it copies the session, and all zeros is the empty one. */
struct threeways_session {
    uint16_t stage;
    uint16_t n;                                     /* switches of the network that is loaded, 0 to n - 1 */
    uint16_t m;                                     /* its links */
    uint16_t root, first, last;
    uint16_t longs;                                 /* long ears accepted */
    uint16_t born;                                  /* switches born */
    uint16_t links[2 * THREEWAYS_MAX_LINKS];        /* two numbers for each link */
    uint8_t ducts[THREEWAYS_MAX_LINKS];             /* by link: its duct, 0 for none */
    uint8_t used[THREEWAYS_MAX_LINKS];              /* by link: 1 where an ear has used it */
    uint16_t births[THREEWAYS_MAX_SWITCHES];        /* by switch: the long ear that it was born in, from 1; 0 unborn */
    uint16_t order[THREEWAYS_MAX_SWITCHES];         /* the switches born, in their order */
    uint16_t tree1[THREEWAYS_MAX_SWITCHES];         /* by switch: its parent in trees 1, 2 and 3 once the session is closed; */
    uint16_t tree2[THREEWAYS_MAX_SWITCHES];         /* the root's is the root, and what stands past n means nothing */
    uint16_t tree3[THREEWAYS_MAX_SWITCHES];
};

typedef char threeways_session_has_34832_bytes[sizeof(struct threeways_session) == 34832 ? 1 : -1];

/* A report on ducts, a state apart from the sessions: over all sessions that were added, by duct 1 to 255, how many switches other than the
 * root lose exactly two of their three walks when all links of the duct fail, and how many lose all three. Places 0 stay 0. All zeros is
 * the empty report. */
struct threeways_report {
    uint16_t sessions;                              /* sessions added */
    uint32_t two[THREEWAYS_DUCTS];
    uint32_t three[THREEWAYS_DUCTS];
};

typedef char threeways_report_has_2052_bytes[sizeof(struct threeways_report) == 2052 ? 1 : -1];

/* What every call but the routes gives: the number of the refusal and its place; number 0 where the call succeeded. */
struct threeways_refusal {
    uint8_t number;
    uint16_t place;
};

/* What the routes call gives: the number of the refusal and its place, or number 0 and one of two answers. Three walks: the count of switches
 * of each, 2 or more, and no things. Or the two switches are parted: all counts are 0, and `things` tells how many things part them, 0, 1 or
 * 2, with the kind and the number of each, kind 0 and number 0 where there is none. After a refusal all other fields are 0. */
struct threeways_between {
    uint8_t number;
    uint16_t place;
    uint16_t walk1, walk2, walk3;
    uint16_t things;
    uint16_t kind1, thing1;                         /* a switch and its number, or a link and its index in the table */
    uint16_t kind2, thing2;
};

typedef char threeways_between_has_20_bytes[sizeof(struct threeways_between) == 20 ? 1 : -1];

/* The kinds of things. */
enum { THREEWAYS_SWITCH = 1, THREEWAYS_LINK = 2 };

/* 255: an array that was lent to a function of the archive has not the length of the struct's. The wrappers never get it. */
enum { THREEWAYS_LENGTHS = 255 };

/* The functions of the archive, over the parts of a session. A slice is a pointer and a count of elements, not of bytes; with a
 * count of 0 the pointer may be any, NULL too. */
struct threeways_refusal threeways_clear_in(
    uint16_t *stage, uint16_t *n, uint16_t *m, uint16_t *root,
    uint16_t *first, uint16_t *last, uint16_t *longs, uint16_t *born,
    uint16_t *links, size_t links_count,
    uint8_t *ducts, size_t ducts_count,
    uint8_t *used, size_t used_count,
    uint16_t *births, size_t births_count,
    uint16_t *order, size_t order_count,
    uint16_t *tree1, size_t tree1_count,
    uint16_t *tree2, size_t tree2_count,
    uint16_t *tree3, size_t tree3_count);

struct threeways_refusal threeways_load_in(
    const struct threeways_link *new_links, size_t new_links_count,
    uint16_t *stage, uint16_t *n, uint16_t *m, uint16_t *root,
    uint16_t *first, uint16_t *last, uint16_t *longs, uint16_t *born,
    uint16_t *links, size_t links_count,
    uint8_t *ducts, size_t ducts_count,
    uint8_t *used, size_t used_count,
    uint16_t *births, size_t births_count,
    uint16_t *order, size_t order_count,
    uint16_t *tree1, size_t tree1_count,
    uint16_t *tree2, size_t tree2_count,
    uint16_t *tree3, size_t tree3_count,
    uint16_t new_n, uint16_t new_root, uint16_t new_first, uint16_t new_last);

struct threeways_refusal threeways_ear_in(
    uint16_t stage, uint16_t n, uint16_t m, uint16_t root,
    uint16_t first, uint16_t last, uint16_t *longs, uint16_t *born,
    const uint16_t *links, size_t links_count,
    uint8_t *used, size_t used_count,
    uint16_t *births, size_t births_count,
    uint16_t *order, size_t order_count,
    uint16_t *tree1, size_t tree1_count,
    uint16_t *tree2, size_t tree2_count,
    const uint16_t *ear, size_t ear_count, uint16_t *count);

struct threeways_refusal threeways_ears_in(
    uint16_t stage, uint16_t n, uint16_t m, uint16_t root,
    uint16_t first, uint16_t last, uint16_t *longs, uint16_t *born,
    const uint16_t *links, size_t links_count,
    uint8_t *used, size_t used_count,
    uint16_t *births, size_t births_count,
    uint16_t *order, size_t order_count,
    uint16_t *tree1, size_t tree1_count,
    uint16_t *tree2, size_t tree2_count,
    const uint16_t *list, size_t list_count, size_t *accepted);

struct threeways_refusal threeways_close_in(
    uint16_t *stage, uint16_t n, uint16_t m, uint16_t root,
    uint16_t first, uint16_t last, uint16_t longs, uint16_t born,
    const uint16_t *links, size_t links_count,
    const uint8_t *used, size_t used_count,
    const uint16_t *births, size_t births_count,
    uint16_t *tree3, size_t tree3_count);

struct threeways_refusal threeways_bring_over_in(
    uint16_t stage, uint16_t n, uint16_t m, uint16_t root,
    uint16_t first, uint16_t last, uint16_t longs, uint16_t born,
    const uint16_t *links, size_t links_count,
    const uint16_t *births, size_t births_count,
    uint16_t *tree3, size_t tree3_count);

struct threeways_refusal threeways_parent_in(
    uint16_t stage, uint16_t n, uint16_t m, uint16_t root,
    uint16_t first, uint16_t last, uint16_t longs, uint16_t born,
    const uint16_t *tree1, size_t tree1_count,
    const uint16_t *tree2, size_t tree2_count,
    const uint16_t *tree3, size_t tree3_count,
    uint16_t switch_number, uint16_t tree, uint16_t *out);

struct threeways_refusal threeways_walk_in(
    uint16_t stage, uint16_t n, uint16_t m, uint16_t root,
    uint16_t first, uint16_t last, uint16_t longs, uint16_t born,
    const uint16_t *tree1, size_t tree1_count,
    const uint16_t *tree2, size_t tree2_count,
    const uint16_t *tree3, size_t tree3_count,
    uint16_t switch_number, uint16_t tree, uint16_t *out, size_t out_count, uint16_t *count);

struct threeways_refusal threeways_zones_in(
    uint16_t stage, uint16_t n, uint16_t m, uint16_t root,
    uint16_t first, uint16_t last, uint16_t longs, uint16_t born,
    const uint16_t *births, size_t births_count,
    const uint16_t *order, size_t order_count,
    uint16_t size1, uint16_t size2, uint16_t size3, uint16_t *out, size_t out_count);

struct threeways_between threeways_routes_in(
    uint16_t stage, uint16_t n, uint16_t m, uint16_t root,
    uint16_t first, uint16_t last, uint16_t longs, uint16_t born,
    const uint16_t *links, size_t links_count,
    uint16_t from, uint16_t to, uint16_t *out, size_t out_count);

struct threeways_refusal threeways_report_begin_in(
    uint16_t *sessions,
    uint32_t *two, size_t two_count,
    uint32_t *three, size_t three_count);

struct threeways_refusal threeways_report_add_in(
    uint16_t *sessions,
    uint32_t *two, size_t two_count,
    uint32_t *three, size_t three_count,
    uint16_t stage, uint16_t n, uint16_t m, uint16_t root,
    uint16_t first, uint16_t last, uint16_t longs, uint16_t born,
    const uint16_t *links, size_t links_count,
    const uint8_t *ducts, size_t ducts_count,
    const uint16_t *tree1, size_t tree1_count,
    const uint16_t *tree2, size_t tree2_count,
    const uint16_t *tree3, size_t tree3_count);

/* An array of a session as it is passed: the pointer, and the count of its elements. */
#define THREEWAYS_ARRAY(array) (array), sizeof(array) / sizeof((array)[0])

/* Makes any memory the empty session. Always succeeds. */
static inline struct threeways_refusal threeways_clear(struct threeways_session *s)
{
    return threeways_clear_in(&s->stage, &s->n, &s->m, &s->root, &s->first, &s->last, &s->longs, &s->born,
        THREEWAYS_ARRAY(s->links), THREEWAYS_ARRAY(s->ducts), THREEWAYS_ARRAY(s->used), THREEWAYS_ARRAY(s->births),
        THREEWAYS_ARRAY(s->order), THREEWAYS_ARRAY(s->tree1), THREEWAYS_ARRAY(s->tree2), THREEWAYS_ARRAY(s->tree3));
}

/* Loads a network of n switches and `count` links into an empty session. Then s->n and s->m tell its size, and s->ducts the duct of each
 * link. Another duct does not make another link. Refusals 20, then 1 to 6. */
static inline struct threeways_refusal threeways_load(struct threeways_session *s, uint16_t n, const struct threeways_link *links,
    size_t count, uint16_t root, uint16_t first, uint16_t last)
{
    return threeways_load_in(links, count, &s->stage, &s->n, &s->m, &s->root, &s->first, &s->last, &s->longs, &s->born,
        THREEWAYS_ARRAY(s->links), THREEWAYS_ARRAY(s->ducts), THREEWAYS_ARRAY(s->used), THREEWAYS_ARRAY(s->births),
        THREEWAYS_ARRAY(s->order), THREEWAYS_ARRAY(s->tree1), THREEWAYS_ARRAY(s->tree2), THREEWAYS_ARRAY(s->tree3),
        n, root, first, last);
}

/* Offers an ear of `count` switch numbers to an open session, and writes how many switches are new. With a count of 0 it is the empty
 * ear: after the first ear it takes every unused link whose two switches are born, as ears of two numbers in table order, and writes 0,
 * also where no such link is left; before it, it is 7. Refusals, in this order: 19, 22, 7 8 9 10 14 11 12 13 15 16. */
static inline struct threeways_refusal threeways_ear(struct threeways_session *s, const uint16_t *ear, size_t count,
    uint16_t *new_switches)
{
    return threeways_ear_in(s->stage, s->n, s->m, s->root, s->first, s->last, &s->longs, &s->born,
        THREEWAYS_ARRAY(s->links), THREEWAYS_ARRAY(s->used), THREEWAYS_ARRAY(s->births), THREEWAYS_ARRAY(s->order),
        THREEWAYS_ARRAY(s->tree1), THREEWAYS_ARRAY(s->tree2), ear, count, new_switches);
}

/* Offers the ears of a list of `numbers` numbers, each ear preceded by its count of switch numbers: one after another, up to the first
 * refusal, which is given back, its place in that ear. Writes how many ears were accepted, also then, and they stay: only the refused
 * one changes nothing. A count past the end of the list is 7 in its turn; with no number at all nothing is offered, at any stage.
 * A count of 0 is the empty ear, and counts as one. Refusals of an ear: those of threeways_ear. */
static inline struct threeways_refusal threeways_ears(struct threeways_session *s, const uint16_t *list, size_t numbers,
    size_t *accepted)
{
    return threeways_ears_in(s->stage, s->n, s->m, s->root, s->first, s->last, &s->longs, &s->born,
        THREEWAYS_ARRAY(s->links), THREEWAYS_ARRAY(s->used), THREEWAYS_ARRAY(s->births), THREEWAYS_ARRAY(s->order),
        THREEWAYS_ARRAY(s->tree1), THREEWAYS_ARRAY(s->tree2), list, numbers, accepted);
}

/* Closes an open session: the three tables are set. In tree 3 a switch other than root and last has, among its neighbours born in a later
 * ear, one whose own walk in tree 3 is shortest, and the lowest number among those. Refusals 19, 22, then 23. */
static inline struct threeways_refusal threeways_close(struct threeways_session *s)
{
    return threeways_close_in(&s->stage, s->n, s->m, s->root, s->first, s->last, s->longs, s->born,
        THREEWAYS_ARRAY(s->links), THREEWAYS_ARRAY(s->used), THREEWAYS_ARRAY(s->births), THREEWAYS_ARRAY(s->tree3));
}

/* Brings over a closed session whose tree 3 was set by the rule before, the lowest number among the neighbours born in a later ear:
 * tree 3 is then as threeways_close sets it, and all else stays. A session that was closed by threeways_close as it is, or that was
 * brought over before, does not change. Refusals 19, then 21. */
static inline struct threeways_refusal threeways_bring_over(struct threeways_session *s)
{
    return threeways_bring_over_in(s->stage, s->n, s->m, s->root, s->first, s->last, s->longs, s->born,
        THREEWAYS_ARRAY(s->links), THREEWAYS_ARRAY(s->births), THREEWAYS_ARRAY(s->tree3));
}

/* Writes the parent of a switch in tree 1, 2 or 3 of a closed session. Refusals 19, 21, then 17. */
static inline struct threeways_refusal threeways_parent(const struct threeways_session *s, uint16_t switch_number,
    uint16_t tree, uint16_t *entry)
{
    return threeways_parent_in(s->stage, s->n, s->m, s->root, s->first, s->last, s->longs, s->born,
        THREEWAYS_ARRAY(s->tree1), THREEWAYS_ARRAY(s->tree2), THREEWAYS_ARRAY(s->tree3), switch_number, tree, entry);
}

/* Writes the walk of a switch in tree 1, 2 or 3 of a closed session at the start of `out`, which has room for `room` numbers (n is
 * always enough), and its count of switches; the rest of `out` is left. Refusals 19, 21, then 17 and 18. */
static inline struct threeways_refusal threeways_walk(const struct threeways_session *s, uint16_t switch_number, uint16_t tree,
    uint16_t *out, size_t room, uint16_t *count)
{
    return threeways_walk_in(s->stage, s->n, s->m, s->root, s->first, s->last, s->longs, s->born,
        THREEWAYS_ARRAY(s->tree1), THREEWAYS_ARRAY(s->tree2), THREEWAYS_ARRAY(s->tree3),
        switch_number, tree, out, room, count);
}

/* Writes the zone of each switch of a closed session, 1, 2 or 3, by its number into the first n places of `out`, which has room for
 * `room` numbers; the rest of `out` is left. Root is in zone 1, first in zone 2, last in zone 3; the zones have size1, size2 and size3
 * switches, and each hangs together by links inside it. Any three sizes of 1 or more that add up to n will do. Refusals, in this order:
 * 19, 21, then 24 (a size is 0, or the sum is not n) and 18 (room for fewer than n numbers). */
static inline struct threeways_refusal threeways_zones(const struct threeways_session *s, uint16_t size1, uint16_t size2,
    uint16_t size3, uint16_t *out, size_t room)
{
    return threeways_zones_in(s->stage, s->n, s->m, s->root, s->first, s->last, s->longs, s->born,
        THREEWAYS_ARRAY(s->births), THREEWAYS_ARRAY(s->order), size1, size2, size3, out, room);
}

/* Three routes between any two switches of a loaded network, whether the session is open or closed. Writes three walks from `from` to `to` one
 * after another at the start of `out`, which has room for `room` numbers, and gives their counts; no walk has a switch twice, and they share
 * no link and no switch but the two. The rest of `out` is left. Where there are no three such walks it gives at most two things whose loss
 * parts the two, other switches or their direct link, and all of `out` is left; with no thing they are parted already. The session is only
 * read. Refusals, in this order: 19, then 26 (the two are equal, or one is n or more) and 18 (room for fewer than n + 4 numbers: as many are
 * always enough, and always asked for, whichever the answer). */
static inline struct threeways_between threeways_routes(const struct threeways_session *s, uint16_t from, uint16_t to,
    uint16_t *out, size_t room)
{
    return threeways_routes_in(s->stage, s->n, s->m, s->root, s->first, s->last, s->longs, s->born,
        THREEWAYS_ARRAY(s->links), from, to, out, room);
}

/* Makes any memory the empty report. Always succeeds. */
static inline struct threeways_refusal threeways_report_begin(struct threeways_report *r)
{
    return threeways_report_begin_in(&r->sessions, THREEWAYS_ARRAY(r->two), THREEWAYS_ARRAY(r->three));
}

/* Adds a closed session to a report, by the walks of its own tables: r->sessions is one more, and r->two and r->three have its switches too.
 * The session is only read. Refusals 19, 21, then 25 (the report has 65,535 sessions). */
static inline struct threeways_refusal threeways_report_add(struct threeways_report *r, const struct threeways_session *s)
{
    return threeways_report_add_in(&r->sessions, THREEWAYS_ARRAY(r->two), THREEWAYS_ARRAY(r->three),
        s->stage, s->n, s->m, s->root, s->first, s->last, s->longs, s->born, THREEWAYS_ARRAY(s->links), THREEWAYS_ARRAY(s->ducts),
        THREEWAYS_ARRAY(s->tree1), THREEWAYS_ARRAY(s->tree2), THREEWAYS_ARRAY(s->tree3));
}

#ifdef __cplusplus
}
#endif

#endif
