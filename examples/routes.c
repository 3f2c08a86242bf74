/* Three routes between two switches other than the root, on document 01's worked network, which is loaded and left open. The session is
 * static and nothing is allocated. Exit status: 0, or 1 after a refusal that was not expected. */
#include <stdio.h>
#include <stdlib.h>

#include "threeways.h"

static const struct threeways_link links[] = { { 0, 1, 0 }, { 0, 2, 0 }, { 0, 3, 0 }, { 1, 2, 0 }, { 1, 3, 0 }, { 2, 3, 0 } };
static const uint16_t ends[] = { 1, 3 };                /* two switches that talk without the root */

#define COUNT(array) (sizeof(array) / sizeof((array)[0]))

static struct threeways_session session;                /* zeros: the empty session */

/* Ends the program where a call was refused that should succeed. */
static void require(const char *call, struct threeways_refusal refusal)
{
    if (refusal.number != 0) {
        fprintf(stderr, "routes: %s: refused %u at %u\n", call, (unsigned)refusal.number, (unsigned)refusal.place);
        exit(EXIT_FAILURE);
    }
}

static void print_switches(const uint16_t *switches, size_t count)
{
    for (size_t i = 0; i < count; i++)
        printf(" %u", (unsigned)switches[i]);
}

/* Prints a thing whose loss parts the two ends: a switch, or their direct link by its index. */
static void print_thing(uint16_t kind, uint16_t thing)
{
    printf(" %s %u", kind == THREEWAYS_SWITCH ? "switch" : "link", (unsigned)thing);
}

/* Asks for three routes between the ends, and prints them, or what parts the two. Walks stand one after another in the slice; n + 4 numbers
 * are always enough. */
static void print_between(void)
{
    static uint16_t walks[THREEWAYS_MAX_SWITCHES + 4];
    struct threeways_between b = threeways_routes(&session, ends[0], ends[1], walks, COUNT(walks));
    struct threeways_refusal refusal = { b.number, b.place };
    const uint16_t counts[] = { b.walk1, b.walk2, b.walk3 }, *walk = walks;
    require("routes", refusal);
    if (b.walk1 == 0) {
        printf("switches %u and %u: parted by", (unsigned)ends[0], (unsigned)ends[1]);
        if (b.things >= 1)
            print_thing(b.kind1, b.thing1);
        if (b.things == 2)
            print_thing(b.kind2, b.thing2);
        puts(b.things == 0 ? " nothing" : "");
        return;
    }
    for (size_t i = 0; i < COUNT(counts); walk += counts[i++]) {
        printf("switches %u and %u, route %zu:", (unsigned)ends[0], (unsigned)ends[1], i + 1);
        print_switches(walk, counts[i]);
        putchar('\n');
    }
}

int main(void)
{
    require("load", threeways_load(&session, 4, links, COUNT(links), 0, 1, 3));
    print_between();
    return EXIT_SUCCESS;
}
