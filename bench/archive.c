/* Makes the calls of a plan through include/threeways.h: load, its list and its ears, close, bring_over, parent and walk of every switch,
 * zones, routes, report_begin, report_add, clear. With pairs of switches behind the plan, or all, it loads the plan and asks for routes between
 * these alone.
 * Call: archive calls PLAN [all | FROM TO ..] or archive stack PLAN [all | FROM TO ..]. A line for each call: name, refusal (0: none), length,
 * bytes of stack (calls: 0); the name of zones that are given has their sizes, that of routes the answer, or the pair where pairs are told. */
#include <stdio.h>
#include <stdlib.h>
#include <string.h>
#include <sys/mman.h>
#include <ucontext.h>

#include "threeways.h"

enum { LINE = 6146, MAX_EARS = 4096, LIST = 20480, ANY = 65535, STACK = 1 << 16, GUARD = 4096 };

#define PAINT UINT64_C(0xa5a5a5a5a5a5a5a5)

/* The plan: net has N, root, first and last; ear i stands in the list from start[i] to start[i + 1], its count first. */
static uint16_t net[4], list[LIST];
static struct threeways_link links[THREEWAYS_MAX_LINKS];
static size_t links_count, ears, start[MAX_EARS + 1];

/* The session, what a call is given beside it, and what it gives. */
static struct threeways_session session;
static struct threeways_report ducts;
static const uint16_t *ear;
static size_t ear_count, accepted, room = THREEWAYS_MAX_SWITCHES;
static uint16_t switch_number, tree, sizes[3], from, to, result, out[ANY];
static struct threeways_refusal refusal;
static struct threeways_between between;

/* The painted stack, the way to it and back, and what is run on it. */
static uint64_t *stack;
static size_t above;                                    /* bytes from its top to the return address of what is run, that one too */
static ucontext_t outside, inside;
static void (*running)(void);

static void fail(const char *what)
{
    fprintf(stderr, "bench/archive: %s\n", what);
    exit(EXIT_FAILURE);
}

/* The calls that are measured, each in a function of its own. */
#define CALL(name, call) __attribute__((noinline)) static void measured_##name(void) { refusal = call; }
CALL(clear, threeways_clear(&session))
CALL(load, threeways_load(&session, net[0], links, links_count, net[1], net[2], net[3]))
CALL(ear, threeways_ear(&session, ear, ear_count, &result))
CALL(ears, threeways_ears(&session, list, start[ears], &accepted))
CALL(close, threeways_close(&session))
CALL(bring_over, threeways_bring_over(&session))
CALL(parent, threeways_parent(&session, switch_number, tree, &result))
CALL(walk, threeways_walk(&session, switch_number, tree, out, room, &result))
CALL(zones, threeways_zones(&session, sizes[0], sizes[1], sizes[2], out, room))
__attribute__((noinline)) static void measured_routes(void) { between = threeways_routes(&session, from, to, out, room); }
CALL(report_begin, threeways_report_begin(&ducts))
CALL(report_add, threeways_report_add(&ducts, &session))

/* Writes the numbers of a line, and gives their count. */
static size_t read_numbers(const char *line, uint16_t *to, size_t most)
{
    size_t count = 0;
    for (const char *at = line + strcspn(line, "0123456789"); *at; at += strcspn(at, "0123456789")) {
        char *end;
        unsigned long number = strtoul(at, &end, 10);
        if (count == most || number > UINT16_MAX)
            fail("a line of the plan has too many or too large numbers");
        to[count++] = (uint16_t)number;
        at = end;
    }
    return count;
}

static int is(const char *line, const char *word) { return strncmp(line, word, strlen(word)) == 0; }

/* Takes the numbers of a link: two, and its duct if it has one. */
static void read_link(const char *line)
{
    uint16_t numbers[3] = { 0, 0, 0 };
    if (links_count == THREEWAYS_MAX_LINKS)
        fail("the plan has too many links");
    if (read_numbers(line, numbers, 3) < 2 || numbers[2] > UINT8_MAX)
        fail("a link line has two numbers, and a duct up to 255");
    links[links_count].a = numbers[0];
    links[links_count].b = numbers[1];
    links[links_count++].duct = (uint8_t)numbers[2];
}

/* Takes a line of the plan. Lines of open, close and walk are passed over: every plan is loaded, closed and asked in the same way. */
static void read_line(const char *line)
{
    if (is(line, "(net ")) {
        if (read_numbers(line, net, 4) != 4)
            fail("a net line has four numbers");
    } else if (is(line, "(link ")) {
        read_link(line);
    } else if (is(line, "(ear")) {
        uint16_t *count = list + start[ears];
        if (ears == MAX_EARS || start[ears] == LIST)
            fail("the plan has too many ears");
        *count = (uint16_t)read_numbers(line, count + 1, LIST - start[ears] - 1);
        start[ears + 1] = start[ears] + 1 + *count;
        ears++;
    } else if (!is(line, "(open)") && !is(line, "(close)") && !is(line, "(walk ")) {
        fail("the plan has a line that is no net, link, open, ear, close or walk");
    }
}

static void read_plan(const char *path)
{
    static char line[LINE];
    FILE *file = fopen(path, "r");
    if (file == NULL)
        fail("the plan cannot be opened");
    while (fgets(line, sizeof line, file) != NULL)
        read_line(line);
    if (ferror(file))
        fail("the plan cannot be read");
    fclose(file);
}

/* A stack of its own, with a page below it that cannot be written. */
static void make_stack(void)
{
    char *memory = mmap(NULL, GUARD + STACK, PROT_READ | PROT_WRITE, MAP_PRIVATE | MAP_ANONYMOUS, -1, 0);
    if (memory == MAP_FAILED || mprotect(memory, GUARD, PROT_NONE) != 0)
        fail("no memory for a stack");
    stack = (uint64_t *)(memory + GUARD);
    for (size_t i = 0; i < STACK / sizeof *stack; i++)
        stack[i] = PAINT;
}

/* Notes where a function begins that is run on the painted stack. Its return address stands above the word at its frame address. */
__attribute__((noinline)) static void note_above(void)
{
    char *top = (char *)stack + STACK, *frame = __builtin_frame_address(0);
    above = (size_t)(top - frame) - sizeof(void *);
}

static void run(void) { running(); }

/* Runs a function on the painted stack, gives the bytes from the top to the deepest that was changed, and paints them again. */
static size_t depth(void (*call)(void))
{
    const size_t words = STACK / sizeof *stack;
    size_t low = 0;
    running = call;
    getcontext(&inside);
    inside.uc_stack.ss_sp = stack;
    inside.uc_stack.ss_size = STACK;
    inside.uc_link = &outside;
    makecontext(&inside, run, 0);
    swapcontext(&outside, &inside);
    while (low < words && stack[low] == PAINT)
        low++;
    for (size_t i = low; i < words; i++)
        stack[i] = PAINT;
    return (words - low) * sizeof *stack;
}

/* Makes a call, on the painted stack if there is one, and gives the bytes of stack below the return address of its caller. */
static size_t make(void (*call)(void))
{
    if (stack != NULL)
        return depth(call) - above;
    call();
    return 0;
}

static void report(const char *name, size_t length, size_t bytes)
{
    printf("%s %u %zu %zu\n", name, (unsigned)refusal.number, length, bytes);
}

/* Offers the ears as one list, and puts the session back as it was. */
static void offer_list(void)
{
    static struct threeways_session before;
    before = session;
    size_t bytes = make(measured_ears);
    report("list", accepted, bytes);
    session = before;
}

static void offer_ears(void)
{
    for (size_t i = 0; i < ears; i++) {
        ear = list + start[i] + 1;
        ear_count = list[start[i]];
        report("ear", ear_count, make(measured_ear));
    }
}

/* Brings over a session whose tree 3 was overwritten: then it has to be the one that close set. */
static void bring_over(void)
{
    static struct threeways_session before;
    before = session;
    if (session.stage == THREEWAYS_CLOSED)
        memset(session.tree3, 0, session.n * sizeof session.tree3[0]);
    report("bring_over", 0, make(measured_bring_over));
    if (memcmp(&before, &session, sizeof session) != 0)
        fail("bring_over has not left what close set");
}

static void ask(uint16_t s, uint16_t t)
{
    switch_number = s;
    tree = t;
    report("parent", 0, make(measured_parent));
    size_t bytes = make(measured_walk);
    report("walk", refusal.number == 0 ? result : 0, bytes);
}

static void ask_zones(unsigned size1, unsigned size2, unsigned size3)
{
    char name[64];
    sizes[0] = (uint16_t)size1;
    sizes[1] = (uint16_t)size2;
    sizes[2] = (uint16_t)size3;
    size_t bytes = make(measured_zones);
    snprintf(name, sizeof name, refusal.number == 0 ? "zones:%u:%u:%u" : "zones", size1, size2, size3);
    report(name, refusal.number == 0 ? session.n : 0, bytes);
}

/* Zones of the sizes that second-list asks for too, then of wrong sizes and with little room. */
static void ask_all_zones(unsigned n)
{
    ask_zones(1, 1, n - 2);
    ask_zones(n / 3, n / 3, n - 2 * (n / 3));
    ask_zones(n - 2, 1, 1);
    ask_zones(1, n - 2, 1);
    ask_zones(n, 1, 1);
    room = n - 1;
    ask_zones(1, 1, n - 2);
    room = THREEWAYS_MAX_SWITCHES;
}

/* Asks for routes in a slice of so many numbers; length is what the walks have of it, or the count of things. */
static void ask_routes(unsigned one, unsigned other, size_t numbers, const char *name)
{
    size_t usual = room;
    from = (uint16_t)one;
    to = (uint16_t)other;
    room = numbers;
    size_t bytes = make(measured_routes), walks = (size_t)between.walk1 + between.walk2 + between.walk3;
    room = usual;
    refusal.number = between.number;
    if (name == NULL)
        name = between.number != 0 ? "routes" : walks != 0 ? "routes:walks" : "routes:parted";
    report(name, walks != 0 ? walks : between.things, bytes);
}

static void ask_pair(unsigned one, unsigned other)
{
    char name[64];
    snprintf(name, sizeof name, "routes:%u:%u", one, other);
    ask_routes(one, other, net[0] + 4u, name);
}

/* Routes between some pairs, then with a number that is too high and with little room. */
static void ask_some_routes(unsigned n)
{
    ask_routes(net[1], net[3], n + 4, NULL);
    ask_routes(net[2], net[3], n + 4, NULL);
    ask_routes(0, n - 1, n + 4, NULL);
    ask_routes(n - 2, 1, n + 4, NULL);
    ask_routes(n, 0, n + 4, NULL);
    ask_routes(0, n - 1, n + 3, NULL);
}

/* The pairs that are told, or all. */
static void ask_pairs(char **words)
{
    if (*words != NULL && strcmp(*words, "all") == 0) {
        for (unsigned one = 0; one < net[0]; one++)
            for (unsigned other = 0; other < net[0]; other++)
                if (one != other)
                    ask_pair(one, other);
        return;
    }
    for (; words[0] != NULL && words[1] != NULL; words += 2)
        ask_pair((unsigned)atoi(words[0]), (unsigned)atoi(words[1]));
}

/* A walk that never meets the root, as far as 16 bits count, with room for a network's walks and with room for all of it, zones of as many
 * switches, routes among 1,024 of them, bringing over with as many links, and a report of 1,024 switches whose walks never meet the root: the same on every network,
 * so it is asked on the smallest alone. */
static void ask_overwritten(void)
{
    session.n = session.root = ANY;
    switch_number = 0;
    tree = 1;
    size_t bytes = make(measured_walk);
    report("overwritten-walk", 0, bytes);
    room = ANY;
    bytes = make(measured_walk);
    report("overwritten-walk", refusal.number == 0 ? result : 0, bytes);
    sizes[0] = sizes[1] = 1;
    sizes[2] = ANY - 2;
    bytes = make(measured_zones);
    report("overwritten-zones", refusal.number == 0 ? session.n : 0, bytes);
    session.m = ANY;
    ask_routes(0, THREEWAYS_MAX_SWITCHES - 1, ANY, "overwritten-routes");
    report("overwritten-bring_over", 0, make(measured_bring_over));
    session.n = THREEWAYS_MAX_SWITCHES;
    report("overwritten-report_add", session.n, make(measured_report_add));
}

int main(int count, char **words)
{
    if (count < 3 || (strcmp(words[1], "calls") != 0 && strcmp(words[1], "stack") != 0))
        fail("usage: archive calls|stack PLAN [all | FROM TO ..]");
    read_plan(words[2]);
    if (strcmp(words[1], "stack") == 0) {
        make_stack();
        depth(note_above);
    }
    report("load", links_count, make(measured_load));
    if (count > 3) {
        ask_pairs(words + 3);
        return EXIT_SUCCESS;
    }
    offer_list();
    offer_ears();
    report("close", 0, make(measured_close));
    bring_over();
    for (uint16_t t = 1; t <= 3; t++)
        for (uint16_t s = 0; s < net[0]; s++)
            ask(s, t);
    ask_all_zones(net[0]);
    ask_some_routes(net[0]);
    report("report_begin", 0, make(measured_report_begin));
    report("report_add", net[0], make(measured_report_add));
    if (session.stage == THREEWAYS_CLOSED && session.n == THREEWAYS_MIN_SWITCHES)
        ask_overwritten();
    report("clear", 0, make(measured_clear));
    return EXIT_SUCCESS;
}
