/* A switch that judges an ear list, sets its three forwarding tables, parts its network into three maintenance zones and reports what one
 * dig may cost: document 01's worked network, as in examples/worked.plan, with a duct. Session and report are static and nothing is allocated. Exit status: 0, or 1 after a refusal that
 * was not expected. */
#include <stdio.h>
#include <stdlib.h>

#include "threeways.h"

enum { TREES = 3, ZONES = 3 };

enum { DUCT = 7 };                                      /* the duct of three cables, from the root to 1, to 3, and from 1 to 2 */

/* The plan: 4 switches with root 0, first 1 and last 3; an ear that a planner got wrong; and the list, each ear preceded by its count of
 * switches: two long ears, and an empty one, which takes the links that they leave. */
static const struct threeways_link links[] = { { 0, 1, DUCT }, { 0, 2, 0 }, { 0, 3, DUCT }, { 1, 2, DUCT }, { 1, 3, 0 }, { 2, 3, 0 } };
static const uint16_t wrong_ear[] = { 0, 2, 3, 1 };
static const uint16_t list[] = { 3, 0, 2, 1, 3, 2, 3, 1, 0 };
static const uint16_t sizes[ZONES] = { 1, 2, 1 };       /* of the zones: they add up to 4 */

#define COUNT(array) (sizeof(array) / sizeof((array)[0]))

static struct threeways_session session;                /* zeros: the empty session */
static struct threeways_report report;                  /* by duct, over the sessions that are added */
static uint16_t forward[TREES][THREEWAYS_MAX_SWITCHES]; /* by tree and switch: the next switch on the way to the root */

/* Ends the program where a call was refused that should succeed. */
static void require(const char *call, struct threeways_refusal refusal)
{
    if (refusal.number != 0) {
        fprintf(stderr, "firmware: %s: refused %u at %u\n", call, (unsigned)refusal.number, (unsigned)refusal.place);
        exit(EXIT_FAILURE);
    }
}

static void print_switches(const uint16_t *switches, size_t count)
{
    for (size_t i = 0; i < count; i++)
        printf(" %u", (unsigned)switches[i]);
}

/* Offers the wrong ear. After a refusal the session is as it was, and other ears can be offered. */
static void offer_wrong_ear(void)
{
    uint16_t new_switches = 0;
    struct threeways_refusal refusal = threeways_ear(&session, wrong_ear, COUNT(wrong_ear), &new_switches);
    if (refusal.number == 0) {
        fputs("firmware: the wrong ear was accepted\n", stderr);
        exit(EXIT_FAILURE);
    }
    printf("ear");
    print_switches(wrong_ear, COUNT(wrong_ear));
    printf(": refused %u at %u\n", (unsigned)refusal.number, (unsigned)refusal.place);
}

/* Offers the list. Where an ear of it is refused, the place is one in that ear, and the ears before it stay accepted. */
static void offer_list(void)
{
    size_t accepted = 0;
    struct threeways_refusal refusal = threeways_ears(&session, list, COUNT(list), &accepted);
    printf("ears accepted: %zu\n", accepted);
    require("ears", refusal);
}

/* Loads the network and brings its ear list to the end. */
static void judge(void)
{
    require("load", threeways_load(&session, 4, links, COUNT(links), 0, 1, 3));
    printf("network: %u switches, %u links\n", (unsigned)session.n, (unsigned)session.m);
    offer_wrong_ear();
    offer_list();
    require("close", threeways_close(&session));
}

/* Sets the forwarding tables from a closed session. */
static void set_forwarding(void)
{
    for (uint16_t tree = 1; tree <= TREES; tree++)
        for (uint16_t s = 0; s < session.n; s++)
            require("parent", threeways_parent(&session, s, tree, &forward[tree - 1][s]));
}

/* Prints the entries and the walks of a switch in the three trees. */
static void print_routes(uint16_t s)
{
    static uint16_t walk[THREEWAYS_MAX_SWITCHES];
    for (uint16_t tree = 1; tree <= TREES; tree++) {
        uint16_t count = 0;
        require("walk", threeways_walk(&session, s, tree, walk, THREEWAYS_MAX_SWITCHES, &count));
        printf("switch %u, tree %u: next %u, walk", (unsigned)s, (unsigned)tree, (unsigned)forward[tree - 1][s]);
        print_switches(walk, count);
        putchar('\n');
    }
}

/* Asks for zones of the sizes wanted, and prints the switches of each: zone 1 has root, zone 2 first, and zone 3 last. */
static void print_zones(void)
{
    static uint16_t zones[THREEWAYS_MAX_SWITCHES];
    require("zones", threeways_zones(&session, sizes[0], sizes[1], sizes[2], zones, THREEWAYS_MAX_SWITCHES));
    for (uint16_t zone = 1; zone <= ZONES; zone++) {
        printf("zone %u:", (unsigned)zone);
        for (uint16_t s = 0; s < session.n; s++)
            if (zones[s] == zone)
                print_switches(&s, 1);
        putchar('\n');
    }
}

/* Begins a report, adds the session, and prints how many switches lose two walks, and all three, when the duct is cut. */
static void print_report(void)
{
    require("report", threeways_report_begin(&report));
    require("report", threeways_report_add(&report, &session));
    printf("duct %u of %u session: %u switches lose two walks, %u all three\n", (unsigned)DUCT, (unsigned)report.sessions,
        (unsigned)report.two[DUCT], (unsigned)report.three[DUCT]);
}

int main(void)
{
    judge();
    set_forwarding();
    for (uint16_t s = 0; s < session.n; s++)
        print_routes(s);
    print_zones();
    print_report();
    return EXIT_SUCCESS;
}
