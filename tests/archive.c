/* A session as memory, as the header and docs/FIRMWARE.md say: the offsets of the structs, when it is compiled; the rest, when it is run.
 * Names each fact that does not hold. Exit status: 0 all hold, 1 one does not. */
#include <stdio.h>
#include <string.h>

#include "threeways.h"

#define AT(type, field, offset) typedef char type##_##field[offsetof(struct type, field) == (offset) ? 1 : -1]
#define SESSION(field, offset) AT(threeways_session, field, offset)
SESSION(stage, 0);
SESSION(n, 2);
SESSION(m, 4);
SESSION(root, 6);
SESSION(first, 8);
SESSION(last, 10);
SESSION(longs, 12);
SESSION(born, 14);
SESSION(links, 16);
SESSION(ducts, 16400);
SESSION(used, 20496);
SESSION(births, 24592);
SESSION(order, 26640);
SESSION(tree1, 28688);
SESSION(tree2, 30736);
SESSION(tree3, 32784);
AT(threeways_link, a, 0);
AT(threeways_link, b, 2);
AT(threeways_link, duct, 4);
AT(threeways_report, sessions, 0);
AT(threeways_report, two, 4);
AT(threeways_report, three, 1028);
AT(threeways_refusal, number, 0);
AT(threeways_refusal, place, 2);
AT(threeways_between, number, 0);
AT(threeways_between, place, 2);
AT(threeways_between, walk1, 4);
AT(threeways_between, walk2, 6);
AT(threeways_between, walk3, 8);
AT(threeways_between, things, 10);
AT(threeways_between, kind1, 12);
AT(threeways_between, thing1, 14);
AT(threeways_between, kind2, 16);
AT(threeways_between, thing2, 18);
typedef char threeways_refusal_has_4_bytes[sizeof(struct threeways_refusal) == 4 ? 1 : -1];

static const struct threeways_link links[] = { { 0, 1, 7 }, { 0, 2, 0 }, { 0, 3, 255 }, { 1, 2, 7 }, { 1, 3, 1 }, { 2, 3, 0 } };
static const uint16_t ears[3][3] = { { 0, 2, 1 }, { 2, 3, 1 }, { 0, 3 } };
static const uint16_t list[] = { 3, 0, 2, 1, 3, 2, 3, 1, 2, 0, 3 };   /* these ears, each preceded by its count */
static const uint16_t longs[] = { 3, 0, 2, 1, 3, 2, 3, 1, 0 };        /* the long ones of them, and an empty ear */
static const uint16_t empty[70000];                                   /* as many empty ears */
static const uint16_t torn[] = { 4, 0, 2, 1 };                        /* the first ear, with a count past the end */
static struct threeways_session session, other, zeros;

/* The session after load, and after its ears and close. The rest of each array is 0, of tree 3 after close it is n. */
static const struct threeways_session loaded = { .stage = THREEWAYS_OPEN, .n = 4, .m = 6, .root = 0, .first = 1, .last = 3,
    .links = { 0, 1, 0, 2, 0, 3, 1, 2, 1, 3, 2, 3 }, .ducts = { 7, 0, 255, 7, 1, 0 } };
static struct threeways_session done = { .stage = THREEWAYS_CLOSED, .n = 4, .m = 6, .root = 0, .first = 1, .last = 3, .longs = 2,
    .born = 4, .links = { 0, 1, 0, 2, 0, 3, 1, 2, 1, 3, 2, 3 }, .ducts = { 7, 0, 255, 7, 1, 0 }, .used = { 1, 1, 1, 1, 1, 1 },
    .births = { 1, 1, 1, 2 }, .order = { 0, 2, 3, 1 }, .tree1 = { 0, 2, 0, 2 }, .tree2 = { 0, 0, 1, 1 }, .tree3 = { 0, 3, 3, 0 } };

static uint16_t out[4] = { 9, 9, 9, 9 }, count = 9;
static size_t accepted;
static int failed;

static void hold(int fact, const char *what)
{
    if (!fact) {
        printf("does not hold: %s\n", what);
        failed = 1;
    }
}

static int is(struct threeways_refusal r, unsigned number, unsigned place) { return r.number == number && r.place == place; }

static int same(const struct threeways_session *a, const struct threeways_session *b) { return memcmp(a, b, sizeof *a) == 0; }

/* Offers a list where SIZE_MAX stands for the count of ears accepted, so that each byte of it has to be written. */
static struct threeways_refusal offer(struct threeways_session *s, const uint16_t *numbers, size_t length)
{
    accepted = SIZE_MAX;
    return threeways_ears(s, numbers, length, &accepted);
}

static struct threeways_refusal load(struct threeways_session *s) { return threeways_load(s, 4, links, 6, 0, 1, 3); }

static void empty_session(void)
{
    hold(is(threeways_load(&session, 4, NULL, 0, 0, 1, 3), 1, 0), "load of no links at NULL is 1 at 0");
    hold(same(&session, &zeros), "a refused load leaves zeros");
    memset(&session, 0xa5, sizeof session);
    hold(is(threeways_ear(&session, ears[0], 3, &count), 19, 0) && count == 9, "any other stage is empty: ear is 19 at 0");
    other = session;
    hold(is(threeways_ear(&session, NULL, 0, &count), 19, 0) && count == 9, "an ear of no numbers at NULL is then 19 at 0");
    hold(is(offer(&session, list, 11), 19, 0) && accepted == 0, "a list is then 19 at 0, with no ear accepted");
    hold(is(offer(&session, NULL, 0), 0, 0) && accepted == 0, "a list of no numbers at NULL succeeds, with no ear accepted");
    hold(same(&session, &other), "a list with no ear accepted leaves any memory");
    hold(is(threeways_clear(&session), 0, 0) && same(&session, &zeros), "clear leaves zeros of any memory");
    session.stage = 3;
    hold(is(load(&session), 0, 0) && same(&session, &loaded), "any other stage is empty: load succeeds, and fills the fields");
    session = zeros;
    hold(is(load(&session), 0, 0) && same(&session, &loaded), "zeros are an empty session: load succeeds, and fills the fields");
}

/* The ducts of the links that are lent. */
static void ducts(void)
{
    static struct threeways_link lent[7], many[65536 + 6];
    struct threeways_session *s = &session;
    memset(s, 0xa5, sizeof *s);
    hold(is(load(s), 0, 0) && same(s, &loaded), "load sets the ducts of any memory, and 0 past the links");
    hold(is(load(s), 20, 0) && same(s, &loaded), "load of an open session is 20 at 0, and leaves its ducts");
    memset(lent, 0xff, sizeof lent);
    for (size_t i = 0; i < 6; i++) {
        lent[i].a = links[i].a;
        lent[i].b = links[i].b;
        lent[i].duct = links[i].duct;
    }
    *s = zeros;
    hold(is(threeways_load(s, 4, lent, 6, 0, 1, 3), 0, 0) && same(s, &loaded), "what lies between two records is not looked at");
    lent[6].a = 3;
    lent[6].b = 1;
    memset(s, 0xa5, sizeof *s);
    other = *s;
    hold(is(threeways_load(s, 4, lent, 7, 0, 1, 3), 4, 6), "a link that is repeated with another duct is 4 at the repeat");
    lent[6].duct = lent[4].duct;
    hold(is(threeways_load(s, 4, lent, 7, 0, 1, 3), 4, 6), "so it is with the same duct");
    hold(is(threeways_load(s, 4, lent, 5, 0, 1, 3), 1, 0), "five links are 1 at 0");
    hold(is(threeways_load(s, 4, many, 4097, 0, 1, 3), 1, 0), "4,097 links are 1 at 0");
    memcpy(many, links, sizeof links);
    hold(is(threeways_load(s, 4, many, 65536 + 6, 0, 1, 3), 1, 0), "65,542 links are 1 at 0");
    hold(is(threeways_load(s, 4, many, 4096, 0, 1, 3), 3, 6), "4,096 links pass that check");
    hold(is(threeways_load_in(links, 6, &s->stage, &s->n, &s->m, &s->root, &s->first, &s->last, &s->longs, &s->born, THREEWAYS_ARRAY(s->links),
        s->ducts, 4095, THREEWAYS_ARRAY(s->used), THREEWAYS_ARRAY(s->births), THREEWAYS_ARRAY(s->order), THREEWAYS_ARRAY(s->tree1),
        THREEWAYS_ARRAY(s->tree2), THREEWAYS_ARRAY(s->tree3), 4, 0, 1, 3), THREEWAYS_LENGTHS, 0), "load with ducts of another length is 255 at 0");
    hold(is(threeways_clear_in(&s->stage, &s->n, &s->m, &s->root, &s->first, &s->last, &s->longs, &s->born, THREEWAYS_ARRAY(s->links),
        s->ducts, 4097, THREEWAYS_ARRAY(s->used), THREEWAYS_ARRAY(s->births), THREEWAYS_ARRAY(s->order), THREEWAYS_ARRAY(s->tree1),
        THREEWAYS_ARRAY(s->tree2), THREEWAYS_ARRAY(s->tree3)), THREEWAYS_LENGTHS, 0), "clear with ducts of another length is 255 at 0");
    hold(same(s, &other), "refused calls leave the ducts, and all else");
    *s = loaded;
}

static void open_session(void)
{
    other = session;
    hold(is(threeways_ear(&session, NULL, 0, &count), 7, 0), "before the first ear one of no numbers at NULL is 7 at 0");
    hold(is(offer(&session, empty, 70000), 7, 0) && accepted == 0, "a list of empty ears is then 7 at 0, with no ear accepted");
    hold(is(threeways_ear(&session, ears[1], 3, &count), 12, 0), "a wrong first ear is 12 at 0");
    hold(is(offer(&session, NULL, 0), 0, 0) && accepted == 0, "a list of no numbers at NULL succeeds on an open session");
    hold(is(offer(&session, torn, 4), 7, 0) && accepted == 0, "a count past the end of the list is 7 at 0");
    hold(is(threeways_close(&session), 23, 0), "close with no ear is 23 at 0");
    hold(is(threeways_walk(&session, 2, 3, out, 4, &count), 21, 0), "walk of an open session is 21 at 0");
    hold(same(&session, &other) && count == 9 && out[0] == 9, "a refusal leaves session and outputs");
    memset(&session, 0xff, sizeof session);
    for (size_t i = done.n; i < THREEWAYS_MAX_SWITCHES; i++)
        done.tree3[i] = done.n;
    for (size_t i = 0; i < 3; i++)
        hold(is(threeways_ear(&other, ears[i], i < 2 ? 3 : 2, &count), 0, 0), "a copy is a session: ear succeeds");
    hold(is(threeways_close(&other), 0, 0) && same(&other, &done), "a copy is a session: close succeeds, and the fields are filled");
}

/* The same list in one call, and in two with a refusal between them. */
static void whole_list(void)
{
    struct threeways_session *s = &session;
    *s = loaded;
    accepted = 9;
    hold(is(threeways_ears_in(s->stage, s->n, s->m, s->root, s->first, s->last, &s->longs, &s->born, THREEWAYS_ARRAY(s->links),
        THREEWAYS_ARRAY(s->used), THREEWAYS_ARRAY(s->births), THREEWAYS_ARRAY(s->order), THREEWAYS_ARRAY(s->tree1), s->tree2, 1023,
        list, 11, &accepted), THREEWAYS_LENGTHS, 0), "a list with an array of another length is 255 at 0");
    hold(accepted == 9 && same(s, &loaded), "it leaves the count and the session");
    hold(is(offer(s, list, 11), 0, 0) && accepted == 3, "the whole list succeeds, with three ears accepted");
    hold(is(threeways_close(s), 0, 0) && same(s, &done), "close succeeds, and the fields are those of ears one by one");
    *s = loaded;
    hold(is(offer(s, list, 10), 7, 0) && accepted == 2, "the list without its last number is 7 at 0, with two ears accepted");
    hold(is(offer(s, list, 11), 14, 1) && accepted == 0, "its first ear is then 14 at 1: the accepted ones stay");
    hold(is(offer(s, list + 8, 3), 0, 0) && accepted == 1, "its last ear succeeds: only the refused one changed nothing");
    hold(is(threeways_close(s), 0, 0) && same(s, &done), "close succeeds, and the fields are the same");
}

/* The long ears, and empty ones, which take the links that are left. */
static void leftover_links(void)
{
    static struct threeways_session before;
    struct threeways_session *s = &session;
    *s = loaded;
    hold(is(offer(s, longs, 4), 0, 0) && accepted == 1, "the first ear succeeds");
    before = *s;
    hold(is(threeways_ear(s, NULL, 0, &count), 0, 0) && count == 0, "after it an ear of no numbers at NULL succeeds, with no new switch");
    hold(is(offer(s, empty, 70000), 0, 0) && accepted == 70000, "a list of empty ears succeeds, and each is an ear accepted");
    hold(is(threeways_ear(s, ears[0], 1, &count), 7, 0), "an ear of one number is 7 at 0");
    hold(same(s, &before), "links with an unborn switch are left, and all else");
    hold(is(threeways_ear(s, ears[1], 3, &count), 0, 0) && is(threeways_close(s), 23, 2), "after the last long ear close is 23 at the link left");
    before = *s;
    before.used[2] = 1;
    hold(is(threeways_ear(s, empty, 0, &count), 0, 0) && same(s, &before), "an empty ear takes that link, and nothing else changes");
    hold(is(threeways_close(s), 0, 0) && same(s, &done), "close succeeds, and the fields are those of the list written out");
    *s = loaded;
    hold(is(offer(s, longs, 9), 0, 0) && accepted == 3, "long ears and an empty one are a list of three ears");
    hold(is(threeways_close(s), 0, 0) && same(s, &done), "close succeeds, and the fields are the same again");
}

/* Five switches, each two joined. */
static const struct threeways_link all_joined[] = { { 0, 1, 0 }, { 0, 2, 0 }, { 0, 3, 0 }, { 0, 4, 0 }, { 1, 2, 0 }, { 1, 3, 0 }, { 1, 4, 0 },
    { 2, 3, 0 }, { 2, 4, 0 }, { 3, 4, 0 } };

/* In that network a switch between the ends that is born is told before a used link and before an unborn end. */
static void crossed_switch(void)
{
    static const uint16_t unborn_end[] = { 3, 0, 4 }, used_link[] = { 0, 2, 3, 1 };
    static const uint16_t listed[] = { 3, 3, 4, 0, 3, 0, 2, 1 };          /* a wrong first ear: all its switches are unborn */
    static struct threeways_session before;
    struct threeways_session *s = &session;
    *s = zeros;
    hold(is(threeways_load(s, 5, all_joined, 10, 0, 1, 4), 0, 0), "five switches, each two joined, are loaded");
    hold(is(offer(s, listed, 8), 12, 0) && accepted == 0, "no first ear crosses a switch: a wrong one is 12 at 0");
    hold(is(offer(s, listed + 4, 4), 0, 0) && accepted == 1, "the first ear succeeds");
    before = *s;
    count = 9;
    hold(is(threeways_ear(s, unborn_end, 3, &count), 14, 1), "a born switch between unborn ends is 14 at 1, not 13 at 0");
    hold(is(threeways_ear(s, used_link, 4, &count), 14, 1), "a born switch on a used link is 14 at 1, not 11 at 0");
    hold(s->births[used_link[1]] == 1, "its birth is the first ear");
    hold(is(threeways_ear(s, used_link, 2, &count), 11, 0), "an ear of two numbers over a used link is 11 at 0");
    hold(is(threeways_ear(s, unborn_end, 2, &count), 13, 0), "an ear of two numbers with an unborn end is 13 at 0");
    hold(same(s, &before) && count == 9, "these refusals leave session and output");
}

static void closed_session(void)
{
    const struct threeways_session *s = &other;
    count = 9;
    hold(is(threeways_ear(&other, NULL, 0, &count), 22, 0) && count == 9, "an ear of no numbers on a closed session is 22 at 0");
    hold(is(offer(&other, torn, 4), 22, 0) && accepted == 0, "a list on a closed session is 22 at 0, with no ear accepted");
    hold(is(offer(&other, NULL, 0), 0, 0) && accepted == 0, "a list of no numbers at NULL succeeds on a closed session");
    hold(is(threeways_parent(s, 4, 1, out), 17, 0) && out[0] == 9, "parent of a switch that is not there is 17 at 0");
    hold(is(threeways_walk(s, 2, 3, NULL, 0, &count), 18, 0), "a walk with no room at NULL is 18 at 0");
    hold(is(threeways_walk(s, 2, 3, out, 2, &count), 18, 0) && out[0] == 9 && count == 9, "a walk with little room leaves the outputs");
    hold(is(threeways_parent_in(s->stage, s->n, s->m, s->root, s->first, s->last, s->longs, s->born, s->tree1, 1023,
        THREEWAYS_ARRAY(s->tree2), THREEWAYS_ARRAY(s->tree3), 2, 3, out), THREEWAYS_LENGTHS, 0) && out[0] == 9, "an array of another length is 255 at 0");
    hold(is(threeways_walk(s, 2, 3, out, 4, &count), 0, 0) && count == 3, "the walk of 2 in tree 3 has 3 switches");
    hold(out[0] == 2 && out[1] == 3 && out[2] == 0 && out[3] == 9, "the walk is 2 3 0, and the rest of the slice is left");
    hold(same(&other, &done), "parent and walk leave the session, and so did the lists");
    hold(is(threeways_clear(&other), 0, 0) && same(&other, &zeros), "clear leaves zeros of a closed session");
}

/* In the same network 1 and 2 have the neighbours 3 and 4 born later, and 4 is last. By the lowest number, the rule before, the
 * walks of 1 and 2 in tree 3 go over 3. */
static void bring_over(void)
{
    static const uint16_t all_list[] = { 3, 0, 2, 1, 3, 2, 3, 1, 3, 2, 4, 3, 0 };
    static struct threeways_session closed, before;
    struct threeways_session *s = &session;
    *s = zeros;
    hold(is(threeways_bring_over(s), 19, 0) && same(s, &zeros), "bringing over an empty session is 19 at 0");
    hold(is(threeways_load(s, 5, all_joined, 10, 0, 1, 4), 0, 0) && is(offer(s, all_list, 13), 0, 0), "a list of five switches is accepted");
    before = *s;
    hold(is(threeways_bring_over(s), 21, 0) && same(s, &before), "bringing over an open session is 21 at 0");
    hold(is(threeways_close(s), 0, 0), "close succeeds");
    hold(s->tree3[0] == 0 && s->tree3[1] == 4 && s->tree3[2] == 4 && s->tree3[3] == 4 && s->tree3[4] == 0, "tree 3 has the shortest walks");
    closed = *s;
    hold(is(threeways_bring_over(s), 0, 0) && same(s, &closed), "bringing over a session that close left changes nothing");
    s->tree3[1] = s->tree3[2] = 3;
    before = *s;
    hold(is(threeways_walk(s, 2, 3, out, 4, &count), 0, 0) && count == 4 && out[1] == 3, "by the lowest number the walk of 2 has 4 switches");
    hold(is(threeways_bring_over_in(s->stage, s->n, s->m, s->root, s->first, s->last, s->longs, s->born, s->links, 8191,
        THREEWAYS_ARRAY(s->births), THREEWAYS_ARRAY(s->tree3)), THREEWAYS_LENGTHS, 0) && same(s, &before), "links of another length are 255 at 0");
    hold(is(threeways_bring_over_in(s->stage, s->n, s->m, s->root, s->first, s->last, s->longs, s->born, THREEWAYS_ARRAY(s->links),
        s->births, 1023, THREEWAYS_ARRAY(s->tree3)), THREEWAYS_LENGTHS, 0) && same(s, &before), "births of another length are 255 at 0");
    hold(is(threeways_bring_over_in(s->stage, s->n, s->m, s->root, s->first, s->last, s->longs, s->born, THREEWAYS_ARRAY(s->links),
        THREEWAYS_ARRAY(s->births), s->tree3, 1023), THREEWAYS_LENGTHS, 0) && same(s, &before), "a tree 3 of another length is 255 at 0");
    hold(is(threeways_bring_over(s), 0, 0) && same(s, &closed), "bringing it over succeeds, and all is as close left it");
    hold(is(threeways_bring_over(s), 0, 0) && same(s, &closed), "bringing it over again changes nothing");
    out[0] = out[1] = out[2] = out[3] = 9;
    hold(is(threeways_walk(s, 2, 3, out, 4, &count), 0, 0) && count == 3, "the walk of 2 then has 3 switches");
    hold(out[0] == 2 && out[1] == 4 && out[2] == 0 && out[3] == 9, "it is 2 4 0, and the rest of the slice is left");
    hold(is(threeways_bring_over_in(THREEWAYS_EMPTY, s->n, s->m, s->root, s->first, s->last, s->longs, s->born, THREEWAYS_ARRAY(s->links),
        THREEWAYS_ARRAY(s->births), s->tree3, 1023), THREEWAYS_LENGTHS, 0), "another length is 255 at any stage");
}

enum { ROOM = 8 };

static uint16_t zones[ROOM];

/* Asks for zones in a slice where 9 stands before. */
static struct threeways_refusal zone(const struct threeways_session *s, unsigned size1, unsigned size2, unsigned size3, size_t room)
{
    for (size_t i = 0; i < ROOM; i++)
        zones[i] = 9;
    return threeways_zones(s, (uint16_t)size1, (uint16_t)size2, (uint16_t)size3, room == 0 ? NULL : zones, room);
}

/* Whether the slice has these digits, one for each number. */
static int are(const char *digits)
{
    for (size_t i = 0; i < ROOM; i++)
        if (zones[i] != digits[i] - '0')
            return 0;
    return 1;
}

/* A refusal by this number that leaves the slice. */
static int refused(struct threeways_refusal r, unsigned number) { return is(r, number, 0) && are("99999999"); }

/* The worked network: of its four switches three are named, so that the sizes decide the zone of the fourth. */
static void zones_refused(void)
{
    struct threeways_session *s = &session;
    hold(refused(zone(&zeros, 0, 1, 3, 0), 19), "zones of an empty session are 19, before wrong sizes and no room");
    hold(refused(zone(&loaded, 0, 1, 3, 0), 21), "zones of an open session are 21, before wrong sizes and no room");
    *s = done;
    hold(refused(zone(s, 0, 1, 3, ROOM), 24), "a first size of 0 is 24");
    hold(refused(zone(s, 1, 0, 3, ROOM), 24) && refused(zone(s, 1, 3, 0, ROOM), 24), "another size of 0 is 24");
    hold(refused(zone(s, 1, 1, 1, ROOM), 24) && refused(zone(s, 2, 2, 1, ROOM), 24), "a sum other than n is 24");
    hold(refused(zone(s, 65535, 1, 4, ROOM), 24), "a sum that is n in 16 bits alone is 24");
    hold(refused(zone(s, 1, 1, 1, 3), 24) && refused(zone(s, 0, 1, 3, 0), 24), "wrong sizes are told before little room");
    hold(refused(zone(s, 1, 2, 1, 3), 18), "room for three numbers is 18");
    hold(refused(zone(s, 1, 2, 1, 0), 18), "no room at NULL is 18");
    s->stage = THREEWAYS_EMPTY;
    hold(refused(threeways_zones_in(s->stage, s->n, s->m, s->root, s->first, s->last, s->longs, s->born, s->births, 1023,
        THREEWAYS_ARRAY(s->order), 1, 2, 1, zones, ROOM), THREEWAYS_LENGTHS), "births of another length are 255, at any stage");
    hold(refused(threeways_zones_in(s->stage, s->n, s->m, s->root, s->first, s->last, s->longs, s->born, THREEWAYS_ARRAY(s->births),
        s->order, 1023, 1, 2, 1, zones, ROOM), THREEWAYS_LENGTHS), "an order of another length is 255, at any stage");
}

/* Card k. Duct 9 has the links that all walks in trees 2 and 3 end with, and the one that the walks of 4 and 5 in tree 1 end with. */
static const struct threeways_link card_k[] = { { 0, 1, 9 }, { 0, 2, 0 }, { 1, 2, 0 }, { 1, 3, 0 }, { 2, 3, 0 }, { 3, 4, 0 }, { 3, 5, 0 },
    { 4, 5, 0 }, { 0, 4, 9 }, { 0, 5, 9 } };
static const uint16_t card_k_list[] = { 3, 0, 2, 1, 3, 2, 3, 1, 3, 3, 4, 0, 3, 3, 5, 4, 0 };

static struct threeways_refusal load_card_k(struct threeways_session *s) { return threeways_load(s, 6, card_k, 10, 0, 1, 5); }

static void zones_given(void)
{
    struct threeways_session *s = &session;
    *s = done;
    hold(is(zone(s, 2, 1, 1, ROOM), 0, 0) && are("12139999"), "sizes 2 1 1 put switch 2 into zone 1, and the rest of the slice is left");
    hold(is(zone(s, 1, 2, 1, 5), 0, 0) && are("12239999"), "sizes 1 2 1 put it into zone 2");
    hold(is(zone(s, 1, 1, 2, 4), 0, 0) && are("12339999"), "sizes 1 1 2 put it into zone 3, and n places are room enough");
    hold(same(s, &done), "zones leave the session");
    *s = zeros;
    hold(is(load_card_k(s), 0, 0) && is(offer(s, card_k_list, 17), 0, 0) && is(threeways_close(s), 0, 0), "the list of card k closes");
    hold(is(zone(s, 4, 1, 1, ROOM), 0, 0) && are("12111399"), "sizes 4 1 1 leave zones 2 and 3 first and last alone");
    hold(is(zone(s, 1, 4, 1, ROOM), 0, 0) && are("12222399"), "sizes 1 4 1 leave zones 1 and 3 root and last alone");
    hold(is(zone(s, 1, 1, 4, ROOM), 0, 0) && are("12333399"), "sizes 1 1 4 leave zones 1 and 2 root and first alone, and cut the first ear");
    hold(is(zone(s, 2, 2, 2, ROOM), 0, 0) && (are("12123399") || are("12231399")), "sizes 2 2 2 give one of the two right answers");
    *s = zeros;
    s->stage = THREEWAYS_CLOSED;
    s->n = 5;
    hold(is(zone(s, 1, 1, 3, ROOM), 0, 0) && zones[0] >= 1 && zones[0] <= 3, "of memory that no calls made zones are given, 1 to 3");
    zones[0] = 9;
    hold(are("93333999"), "they are 3 for switches that are not in its order, and the rest of the slice is left");
}

enum { WALKS_ROOM = 16 };

static uint16_t walks[WALKS_ROOM];

/* Asks for routes in a slice where 9 stands before. */
static struct threeways_between route(const struct threeways_session *s, unsigned from, unsigned to, size_t room)
{
    for (size_t i = 0; i < WALKS_ROOM; i++)
        walks[i] = 9;
    return threeways_routes(s, (uint16_t)from, (uint16_t)to, room == 0 ? NULL : walks, room);
}

/* Whether 9 stands in the slice from this place on. */
static int left_from(size_t place)
{
    for (size_t i = place; i < WALKS_ROOM; i++)
        if (walks[i] != 9)
            return 0;
    return 1;
}

static int no_walks(struct threeways_between r) { return r.walk1 == 0 && r.walk2 == 0 && r.walk3 == 0; }

static int no_things(struct threeways_between r)
{
    return r.things == 0 && r.kind1 == 0 && r.thing1 == 0 && r.kind2 == 0 && r.thing2 == 0;
}

/* A refusal by this number at 0: nothing else is told, and the slice is left. */
static int not_routed(struct threeways_between r, unsigned number)
{
    return r.number == number && r.place == 0 && no_walks(r) && no_things(r) && left_from(0);
}

static int joined(const struct threeways_session *s, unsigned a, unsigned b)
{
    for (size_t i = 0; i < 2 * (size_t)s->m; i += 2)
        if ((s->links[i] == a && s->links[i + 1] == b) || (s->links[i] == b && s->links[i + 1] == a))
            return 1;
    return 0;
}

/* Whether a walk goes from one to the other over links, and meets between them only switches that are not seen yet: it marks these. A walk
 * of two switches marks the first. */
static int walks_on(const struct threeways_session *s, const uint16_t *walk, size_t length, unsigned from, unsigned to, char *seen)
{
    if (length < 2 || walk[0] != from || walk[length - 1] != to)
        return 0;
    for (size_t i = 1; i < length; i++)
        if (!joined(s, walk[i - 1], walk[i]))
            return 0;
    for (size_t i = length == 2 ? 0 : 1; i < length - 1; i++)
        if ((length > 2 && (walk[i] == from || walk[i] == to)) || seen[walk[i]]++)
            return 0;
    return 1;
}

/* Whether three walks are given that share no link and no switch but the two, and the rest of the slice is left. */
static int routed(const struct threeways_session *s, struct threeways_between r, unsigned from, unsigned to)
{
    char seen[WALKS_ROOM] = { 0 };
    const uint16_t *second = walks + r.walk1, *third = second + r.walk2;
    return r.number == 0 && r.place == 0 && no_things(r) && r.walk1 + r.walk2 + r.walk3 <= s->n + 4
        && walks_on(s, walks, r.walk1, from, to, seen) && walks_on(s, second, r.walk2, from, to, seen)
        && walks_on(s, third, r.walk3, from, to, seen) && left_from((size_t)r.walk1 + r.walk2 + r.walk3);
}

/* Whether the two are parted by at most two things, with 0 for those that are not, and the slice is left. */
static int parted(struct threeways_between r)
{
    return r.number == 0 && r.place == 0 && no_walks(r) && r.things <= 2 && left_from(0)
        && (r.things >= 1 ? r.kind1 == THREEWAYS_SWITCH || r.kind1 == THREEWAYS_LINK : r.kind1 == 0 && r.thing1 == 0)
        && (r.things == 2 ? r.kind2 == THREEWAYS_SWITCH || r.kind2 == THREEWAYS_LINK : r.kind2 == 0 && r.thing2 == 0);
}

/* Whether this thing is one of those. */
static int among(struct threeways_between r, unsigned kind, unsigned thing)
{
    return (r.kind1 == kind && r.thing1 == thing) || (r.kind2 == kind && r.thing2 == thing);
}

/* Asks with so many numbers of the link table. */
static struct threeways_between route_with(const struct threeways_session *s, size_t links_count)
{
    route(s, 1, 1, 0);
    return threeways_routes_in(s->stage, s->n, s->m, s->root, s->first, s->last, s->longs, s->born, s->links, links_count, 1, 3, walks, 8);
}

static void routes_refused(void)
{
    struct threeways_session *s = &session;
    hold(not_routed(route(&zeros, 1, 1, 0), 19), "routes of an empty session are 19, before wrong switches and no room");
    *s = done;
    s->stage = 3;
    hold(not_routed(route(s, 1, 3, 8), 19), "any other stage is empty: routes are 19");
    *s = done;
    hold(not_routed(route(s, 1, 1, 8), 26), "routes from a switch to itself are 26");
    hold(not_routed(route(s, 4, 1, 8), 26) && not_routed(route(s, 1, 4, 8), 26), "a switch that is not there is 26, on either side");
    hold(not_routed(route(s, 65535, 65535, 8), 26), "so are two that are not there");
    hold(not_routed(route(s, 1, 1, 7), 26) && not_routed(route(s, 4, 1, 0), 26), "wrong switches are told before little room");
    hold(not_routed(route(&loaded, 2, 2, 0), 26), "and so on an open session");
    hold(not_routed(route(s, 1, 3, 7), 18) && not_routed(route(&loaded, 1, 3, 7), 18), "room for n + 3 numbers is 18");
    hold(not_routed(route(s, 1, 3, 0), 18), "no room at NULL is 18");
    hold(same(s, &done), "refused routes leave the session");
    hold(not_routed(route_with(s, 8191), THREEWAYS_LENGTHS) && not_routed(route_with(s, 8193), THREEWAYS_LENGTHS), "links of another length are 255");
    hold(not_routed(route_with(&zeros, 8191), THREEWAYS_LENGTHS), "they are at any stage");
    s->n = 65535;
    hold(not_routed(route(s, 1, 3, 3), 18), "n + 4 is not cut to 16 bits");
}

static void routes_given(void)
{
    static uint16_t of_open[WALKS_ROOM];
    struct threeways_session *s = &session;
    struct threeways_between r;
    *s = done;
    r = route(&loaded, 1, 3, 8);
    hold(routed(&loaded, r, 1, 3) && r.walk1 + r.walk2 + r.walk3 == 8, "of an open session walks from 1 to 3 have n + 4 numbers, and n + 4 are room");
    memcpy(of_open, walks, sizeof walks);
    hold(routed(s, route(s, 1, 3, 8), 1, 3) && memcmp(walks, of_open, sizeof walks) == 0, "closed, the session gives the same walks");
    for (unsigned from = 0; from < 4; from++)
        for (unsigned to = 0; to < 4; to++)
            hold(from == to || routed(s, route(s, from, to, WALKS_ROOM), from, to), "of the worked network each two have three walks, and the rest is left");
    hold(same(s, &done), "routes leave the session");
    hold(route_with(s, 8192).number == 0, "with the right length the walks are given");
}

/* Card k, two triangles 0 1 2 and 3 4 5 with the link 2 3 between them, and two networks of four switches with none. */
static void routes_parted(void)
{
    static const struct threeways_link bridge[] = { { 0, 1, 0 }, { 0, 2, 0 }, { 1, 2, 0 }, { 3, 4, 0 }, { 3, 5, 0 }, { 4, 5, 0 }, { 2, 3, 0 } };
    static struct threeways_link two_parts[12];
    struct threeways_session *s = &session;
    struct threeways_between r;
    *s = zeros;
    hold(is(load_card_k(s), 0, 0) && parted(r = route(s, 1, 4, 10)), "in card k 1 and 4 are parted");
    hold(r.things == 2 && among(r, THREEWAYS_SWITCH, 0) && among(r, THREEWAYS_SWITCH, 3), "they are by 0 and 3");
    hold(not_routed(route(s, 1, 4, 9), 18), "that answer too asks for room for n + 4 numbers");
    hold(routed(s, route(s, 0, 3, WALKS_ROOM), 0, 3) && routed(s, route(s, 4, 5, 10), 4, 5), "0 and 3 have three walks, and so have 4 and 5");
    *s = zeros;
    hold(is(threeways_load(s, 6, bridge, 7, 0, 1, 2), 0, 0), "two triangles with a link between them are loaded");
    hold(parted(r = route(s, 3, 2, 10)) && among(r, THREEWAYS_LINK, 6), "2 and 3 are parted by their direct link, told by its index");
    hold(parted(r = route(s, 0, 5, 10)) && (among(r, THREEWAYS_SWITCH, 2) || among(r, THREEWAYS_SWITCH, 3)), "0 and 5 are by 2 or 3");
    for (size_t i = 0; i < 6; i++) {
        two_parts[i] = links[i];
        two_parts[i + 6].a = links[i].a + 4;
        two_parts[i + 6].b = links[i].b + 4;
    }
    *s = zeros;
    hold(is(threeways_load(s, 8, two_parts, 12, 0, 1, 3), 0, 0) && parted(route(s, 1, 6, 12)), "where no walk leads from one to the other they are parted");
    hold(routed(s, route(s, 7, 5, 12), 7, 5), "in their part 7 and 5 have three walks");
}

/* Memory that no calls made: the call ends, reads the session only, and writes no more than it tells. */
static void routes_of_any_memory(void)
{
    static uint16_t wide[65535 + 4 + 1];
    struct threeways_between r;
    memset(&session, 0xff, sizeof session);
    session.stage = THREEWAYS_OPEN;
    other = session;
    for (size_t i = 0; i < 65535 + 5; i++)
        wide[i] = 9;
    r = threeways_routes(&session, 1, 3, wide, 65535 + 4);
    hold(r.number == 0 && same(&session, &other), "of memory that no calls made an answer is given, and it is only read");
    for (size_t i = (size_t)r.walk1 + r.walk2 + r.walk3; i < 65535 + 5; i++)
        if (wide[i] != 9) {
            hold(0, "the slice past the walks is left");
            break;
        }
}

static struct threeways_report report, kept;

static int same_report(void) { return memcmp(&report, &kept, sizeof report) == 0; }

/* Whether the report has so many sessions, these sums for this duct, and 0 for every other. */
static int has(unsigned sessions, unsigned duct, unsigned two, unsigned three)
{
    for (unsigned d = 0; d < THREEWAYS_DUCTS; d++)
        if (report.two[d] != (d == duct ? two : 0) || report.three[d] != (d == duct ? three : 0))
            return 0;
    return report.sessions == sessions;
}

/* The worked network, closed, with these ducts for its links. */
static struct threeways_session *with_ducts(const char *digits)
{
    session = done;
    for (size_t i = 0; i < 6; i++)
        session.ducts[i] = (uint8_t)(digits[i] - '0');
    return &session;
}

/* Cards i and k: the walks of 1 are 1 2 0, 1 0 and 1 3 0, those of 2 are 2 0, 2 1 0 and 2 3 0, those of 3 are 3 2 0, 3 1 0 and 3 0. */
static void report_given(void)
{
    memset(&report, 0xa5, sizeof report);
    hold(is(threeways_report_begin(&report), 0, 0) && has(0, 0, 0, 0), "begin makes any memory the empty report");
    hold(is(threeways_report_add(&report, with_ducts("000000")), 0, 0) && has(1, 0, 0, 0), "links in no duct cost nothing");
    hold(is(threeways_report_add(&report, with_ducts("555000")), 0, 0) && has(2, 5, 0, 3), "the three links at the root cost every switch all three walks");
    hold(same(&session, with_ducts("555000")), "the session is only read");
    hold(is(threeways_report_add(&report, with_ducts("505000")), 0, 0) && has(3, 5, 3, 3), "two of them cost every switch two");
    hold(is(threeways_report_add(&report, with_ducts("550000")), 0, 0) && has(4, 5, 6, 3), "and so do two others");
    hold(is(threeways_report_add(&report, with_ducts("500000")), 0, 0) && has(5, 5, 6, 3), "one of them costs no switch two");
    hold(is(threeways_report_add(&report, with_ducts("567000")), 0, 0) && has(6, 5, 6, 3), "nor do all three in ducts of their own");
    hold(is(threeways_report_add(&report, with_ducts("505500")), 0, 0) && has(7, 5, 8, 4), "with the link 1 2 they cost 1 all three, and 2 and 3 two");
    hold(is(threeways_report_begin(&report), 0, 0) && is(threeways_report_add(&report, &done), 0, 0) && has(1, 7, 1, 0),
        "the ducts of the load count: 7 costs switch 1 two walks");
    session = zeros;
    hold(is(load_card_k(&session), 0, 0) && is(offer(&session, card_k_list, 17), 0, 0) && is(threeways_close(&session), 0, 0),
        "the list of card k closes");
    hold(is(threeways_report_begin(&report), 0, 0) && is(threeways_report_add(&report, &session), 0, 0) && has(1, 9, 3, 2),
        "duct 9 of card k costs 4 and 5 all three walks, and 1, 2 and 3 two");
    session.tree3[3] = 4;
    session.ducts[5] = 9;
    session.ducts[9] = 0;
    hold(is(threeways_report_add(&report, &session), 0, 0) && has(2, 9, 8, 2),
        "by the lowest number third walks go over 3 4: the table that the session has counts");
}

/* A full report: the sums of 65,535 sessions are exact, and the next is refused after the state checks. */
static void report_full(void)
{
    const struct threeways_session *s = with_ducts("505500");
    threeways_report_begin(&report);
    for (unsigned i = 0; i < THREEWAYS_MAX_SESSIONS; i++)
        if (threeways_report_add(&report, s).number != 0)
            hold(0, "65,535 sessions are added");
    hold(has(65535, 5, 2 * 65535, 65535), "the sums of 65,535 sessions are exact");
    kept = report;
    hold(is(threeways_report_add(&report, s), 25, 0) && same_report(), "a 65,536th session is 25 at 0, and leaves the report");
    hold(is(threeways_report_add(&report, &zeros), 19, 0) && same_report(), "an empty session is then 19 at 0");
    hold(is(threeways_report_add(&report, &loaded), 21, 0) && same_report(), "an open session is then 21 at 0");
    hold(is(threeways_report_begin(&report), 0, 0) && has(0, 0, 0, 0), "begin makes it empty again");
}

/* Adds the session at a stage, with so many elements of these arrays. */
static struct threeways_refusal add_with(unsigned stage, size_t two, size_t links_count, size_t ducts_count, size_t tree3)
{
    struct threeways_session *s = &session;
    return threeways_report_add_in(&report.sessions, report.two, two, THREEWAYS_ARRAY(report.three), (uint16_t)stage, s->n, s->m, s->root,
        s->first, s->last, s->longs, s->born, s->links, links_count, s->ducts, ducts_count, THREEWAYS_ARRAY(s->tree1),
        THREEWAYS_ARRAY(s->tree2), s->tree3, tree3);
}

static void report_refused(void)
{
    struct threeways_session *s = with_ducts("505500");
    struct threeways_report *r = &report;
    memset(r, 0x5a, sizeof *r);
    kept = *r;
    hold(is(threeways_report_add(r, &zeros), 19, 0) && same_report(), "adding an empty session is 19 at 0, and leaves the report");
    hold(is(threeways_report_add(r, &loaded), 21, 0) && same_report(), "adding an open session is 21 at 0, and leaves the report");
    hold(is(threeways_report_begin_in(&r->sessions, r->two, 255, THREEWAYS_ARRAY(r->three)), THREEWAYS_LENGTHS, 0) && same_report(),
        "begin with another length of two is 255 at 0");
    hold(is(threeways_report_begin_in(&r->sessions, THREEWAYS_ARRAY(r->two), r->three, 257), THREEWAYS_LENGTHS, 0) && same_report(),
        "begin with another length of three is 255 at 0");
    hold(is(add_with(s->stage, 255, 8192, 4096, 1024), THREEWAYS_LENGTHS, 0) && same_report(), "add with another length of two is 255 at 0");
    hold(is(add_with(s->stage, 256, 8191, 4096, 1024), THREEWAYS_LENGTHS, 0) && same_report(), "add with another length of links is 255 at 0");
    hold(is(add_with(s->stage, 256, 8192, 4097, 1024), THREEWAYS_LENGTHS, 0) && same_report(), "add with another length of ducts is 255 at 0");
    hold(is(add_with(s->stage, 256, 8192, 4096, 1023), THREEWAYS_LENGTHS, 0) && same_report(), "add with another length of tree 3 is 255 at 0");
    hold(is(add_with(THREEWAYS_EMPTY, 256, 8192, 4096, 1023), THREEWAYS_LENGTHS, 0) && same_report(), "another length is 255 at any stage");
    threeways_report_begin(r);
    hold(is(add_with(s->stage, 256, 8192, 4096, 1024), 0, 0) && has(1, 5, 2, 1), "with the right lengths the session is added");
    memset(s, 0xff, sizeof *s);
    s->stage = THREEWAYS_CLOSED;
    other = *s;
    hold(is(threeways_report_add(r, s), 0, 0) && r->sessions == 2 && same(s, &other), "memory that no calls made is added too, and only read");
}

int main(void)
{
    empty_session();
    ducts();
    open_session();
    whole_list();
    leftover_links();
    crossed_switch();
    closed_session();
    bring_over();
    zones_refused();
    zones_given();
    routes_refused();
    routes_given();
    routes_parted();
    routes_of_any_memory();
    report_given();
    report_full();
    report_refused();
    return failed;
}
