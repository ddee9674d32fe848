/* A driver for the C interface (include/breatharena.h): reads commands from standard input, makes the calls, prints the answers.
 *
 * Every call is made twice, on two tables with the same cells: the end of the one and the start of the other touch a page that may
 * not be accessed, so that any access outside stops the driver. Both must give the same answer and the same cells. After each call
 * the driver checks what must hold on any table at all; on a violation it prints a line "wrong: .." and exits with 1.
 *
 * Run: driver [SECONDS]      a command that takes more than SECONDS (120) of processor time is a violation
 *
 * Commands, words apart by blanks or line ends:
 *   m M                        m from here on
 *   map CELLS                  new memory for so many cells, all 0; with 0 cells one table is NULL
 *   lend CELLS                 the number of cells told to the calls from here on (after map: as many as are mapped)
 *   set FIRST COUNT HEX ..     so many cells from FIRST on
 *   fill SEED                  random cells
 *   flip CELL BIT              turn one bit over
 *   dump                       "cells HEX .."
 *   start                      "start REFUSAL"
 *   take N                     "take REFUSAL OFFSET"
 *   give OFFSET                "give REFUSAL"
 *   which OFFSET               "which REFUSAL START SIZE"
 *   figures                    "figures REFUSAL LIVE HELD ROOM"
 *   checkup                    "checkup REFUSAL SOUND"
 *   needed M                   "needed CELLS", ba_table_cells
 *   watch EVERY                from here on each take, give and which, and one in so many of the other calls, is made once more, and the
 *                              accesses that the machine makes to the table are counted and held to the bound; 0: none (x86-64 alone)
 *   campaign SEED COUNT M      so many random requests on damaged tables, then a line of counts
 */
#define _GNU_SOURCE
#include <inttypes.h>
#include <signal.h>
#include <stddef.h>
#include <stdint.h>
#include <stdio.h>
#include <stdlib.h>
#include <string.h>
#include <sys/mman.h>
#include <sys/time.h>
#include <ucontext.h>
#include <unistd.h>

#include "breatharena.h"

enum { PAGE = 1024, SMALL_MOST = 512, M_MOST = 12, CELLS_PER_PAGE = 3, SIZES = 10, OUTS = 3, SECONDS = 120, REFUSALS = 7 };
static const uint64_t sizes[SIZES] = {16, 32, 48, 64, 96, 128, 192, 256, 384, 512};
#define POISON UINT64_C(0xA5A5A5A5A5A5A5A5) /* stands in every out value before a call */
#define SLACK 0x5A                          /* stands in every mapped byte that is no cell */

enum kind { START, TAKE, GIVE, WHICH, FIGURES, CHECKUP, KINDS };
static const char *const words[KINDS] = {"start", "take", "give", "which", "figures", "checkup"};
static const int arguments[KINDS] = {0, 1, 1, 1, 0, 0};
static const int outs[KINDS] = {0, 1, 0, 2, 3, 1};

struct call {
    enum kind kind;
    uint64_t argument;
    uint64_t refusal;
    uint64_t out[OUTS];
};

/* Memory for a table between two pages that may not be accessed. */
struct place {
    unsigned char *base; /* the first of the two */
    size_t bytes;        /* between the two */
    uint64_t *table;
};

static struct place at_end, at_start, closed;
static uint64_t *before; /* the cells before the call */
static size_t mapped, lent;
static uint64_t m;
static char doing[200]; /* what the driver is about, for the message after a fault */

/* Messages. */

static void wrong(const char *what)
{
    printf("wrong: %s: %s\n", doing, what);
    fflush(stdout);
    _exit(1);
}

static void on_signal(int number)
{
    static const char outside[] = "wrong: access outside the table: ", other[] = "wrong: stopped by a signal or too slow: ";
    int fault = number == SIGSEGV || number == SIGBUS;
    ssize_t ignored = write(1, fault ? outside : other, fault ? sizeof outside - 1 : sizeof other - 1);
    ignored = write(1, doing, strlen(doing));
    ignored = write(1, "\n", 1);
    (void)ignored;
    _exit(3);
}

/* The archive wants memset from whoever links it. This one stores whole cells where it can, as many accesses as start may make; that of a C
 * library may take other steps.
 */
void *memset(void *to, int value, size_t count)
{
    size_t done = 0;
    if ((uintptr_t)to % sizeof(uint64_t) == 0 && count % sizeof(uint64_t) == 0)
        for (; done < count; done += sizeof(uint64_t))
            *(volatile uint64_t *)((unsigned char *)to + done) = UINT64_C(0x0101010101010101) * (unsigned char)value;
    for (; done < count; done++)
        *(volatile unsigned char *)((unsigned char *)to + done) = (unsigned char)value;
    return to;
}

/* Random numbers: splitmix64. */

static uint64_t random_state;

static uint64_t random_bits(void)
{
    uint64_t z = random_state += UINT64_C(0x9E3779B97F4A7C15);
    z = (z ^ z >> 30) * UINT64_C(0xBF58476D1CE4E5B9);
    z = (z ^ z >> 27) * UINT64_C(0x94D049BB133111EB);
    return z ^ z >> 31;
}

static uint64_t below(uint64_t bound)
{
    return random_bits() % bound;
}

/* The two places and their cells. */

static size_t needed(void)
{
    return m <= M_MOST ? (size_t)CELLS_PER_PAGE << m : 0;
}

static uint64_t arena_bytes(void)
{
    return (uint64_t)PAGE << m;
}

static void map_place(struct place *place, size_t cells, int touch_end)
{
    size_t page = (size_t)sysconf(_SC_PAGESIZE);
    if (place->base)
        munmap(place->base, place->bytes + 2 * page);
    place->bytes = (cells * sizeof(uint64_t) + page - 1) / page * page;
    void *base = mmap(NULL, place->bytes + 2 * page, PROT_NONE, MAP_PRIVATE | MAP_ANONYMOUS, -1, 0);
    if (base == MAP_FAILED)
        wrong("the driver has no memory");
    place->base = base;
    unsigned char *first = place->base + page;
    if (place->bytes && mprotect(first, place->bytes, PROT_READ | PROT_WRITE) != 0)
        wrong("the driver can't open its memory");
    memset(first, SLACK, place->bytes);
    place->table = (uint64_t *)(touch_end ? first + place->bytes - cells * sizeof(uint64_t) : first);
    if (cells == 0 && !touch_end)
        place->table = NULL;
    else
        memset(place->table, 0, cells * sizeof(uint64_t));
}

static void map_both(size_t cells)
{
    map_place(&at_end, cells, 1);
    map_place(&at_start, cells, 0);
    map_place(&closed, cells, 0);
    free(before);
    before = malloc((cells + 1) * sizeof *before);
    if (!before)
        wrong("the driver has no memory");
    mapped = lent = cells;
}

static void set_cell(size_t at, uint64_t value)
{
    if (at >= mapped)
        wrong("the command is about a cell that is not mapped");
    at_end.table[at] = at_start.table[at] = value;
}

static void flip(size_t at, uint64_t bit)
{
    snprintf(doing, sizeof doing, "flip");
    set_cell(at, at < mapped ? at_end.table[at] ^ UINT64_C(1) << (bit & 63) : 0);
}

static void check_slack(const struct place *place)
{
    const unsigned char *first = place->base + sysconf(_SC_PAGESIZE), *table = (const unsigned char *)place->table;
    if (!place->bytes)
        return;
    for (const unsigned char *byte = first; byte < first + place->bytes; byte++) {
        if (byte == table)
            byte += mapped * sizeof(uint64_t);
        if (byte < first + place->bytes && *byte != SLACK)
            wrong("a byte outside the table has changed");
    }
}

/* Calls. */

static uint64_t block_size(uint64_t n)
{
    for (int i = 0; i < SIZES; i++)
        if (n <= sizes[i])
            return sizes[i];
    uint64_t size = PAGE;
    while (size < n)
        size *= 2;
    return size;
}

static void make_call(struct call *call, uint64_t *table)
{
    uint64_t *out = call->out;
    for (int i = 0; i < OUTS; i++)
        out[i] = POISON;
    switch (call->kind) {
    case START: call->refusal = ba_start(table, lent, m); break;
    case TAKE: call->refusal = ba_take(table, lent, m, call->argument, &out[0]); break;
    case GIVE: call->refusal = ba_give_back(table, lent, m, call->argument); break;
    case WHICH: call->refusal = ba_which(table, lent, m, call->argument, &out[0], &out[1]); break;
    case FIGURES: call->refusal = ba_figures(table, lent, m, &out[0], &out[1], &out[2]); break;
    case CHECKUP: call->refusal = ba_check_up(table, lent, m, &out[0]); break;
    default: wrong("no such call");
    }
}

/* The refusal that the numbers alone decide, or 0. */
static uint64_t refusal_of_numbers(const struct call *call)
{
    if (m > M_MOST)
        return 6;
    if (lent < needed())
        return 5;
    if (call->kind == TAKE && call->argument == 0)
        return 1;
    if (call->kind == TAKE && call->argument > arena_bytes())
        return 2;
    if ((call->kind == GIVE || call->kind == WHICH) && call->argument >= arena_bytes())
        return 4;
    return 0;
}

/* What an answer must be like on any table at all. */
static void check_form(const struct call *call)
{
    uint64_t refusal = call->refusal, decided = refusal_of_numbers(call);
    uint64_t start = call->out[0], whole = decided ? 0 : arena_bytes();
    if (decided && refusal != decided)
        wrong("not the refusal that the numbers ask for");
    if (!decided && refusal != 0 && !(call->kind == TAKE && refusal == 3)
        && !((call->kind == GIVE || call->kind == WHICH) && refusal == 4))
        wrong("a refusal that this call can't have");
    for (int i = 0; i < outs[call->kind]; i++) {
        if (refusal != 0 && call->out[i] != 0)
            wrong("an out value beside a refusal is not 0");
        if (call->out[i] == POISON)
            wrong("an out value was not written");
    }
    for (int i = outs[call->kind]; i < OUTS; i++)
        if (call->out[i] != POISON)
            wrong("the driver is broken");
    if (refusal != 0)
        return;
    if (call->kind == TAKE && (start > whole || block_size(call->argument) > whole - start))
        wrong("take answers a block that is not in the arena");
    if (call->kind == WHICH && (start > whole || call->out[1] > whole - start))
        wrong("which answers a block that is not in the arena");
    if (call->kind == CHECKUP && call->out[0] > 1)
        wrong("check-up answers neither 0 nor 1");
}

/* What a call may have done to the cells. */
static void check_cells(const struct call *call, const uint64_t *table)
{
    size_t keeps_from = needed() < mapped ? needed() : mapped;
    if (call->refusal != 0 || call->kind == WHICH || call->kind == FIGURES || call->kind == CHECKUP)
        keeps_from = 0;
    if (mapped && table && memcmp(table + keeps_from, before + keeps_from, (mapped - keeps_from) * sizeof *table) != 0)
        wrong(call->refusal ? "a refusal has changed a cell" : keeps_from ? "a cell beyond the needed ones has changed"
                                                                          : "a request that only reads has changed a cell");
}

/* Accesses, as the machine makes them. The memory of a third table is closed, so that each instruction that touches it faults. It is
 * counted, the memory is opened for this one instruction, and the trap after it closes the memory again.
 */

static uint64_t watch_every, watch_count;
static volatile uint64_t accesses;
static volatile int watching, stepping;
static uint64_t accesses_seen[KINDS], watched_calls; /* the most for each kind */

static void open_table(int open)
{
    if (mprotect(closed.base + sysconf(_SC_PAGESIZE), closed.bytes, open ? PROT_READ | PROT_WRITE : PROT_NONE) != 0)
        wrong("the driver can't open or close its memory");
}

#ifdef __x86_64__
enum { TRAP_FLAG = 0x100 };

static void on_fault(int number, siginfo_t *info, void *context)
{
    const unsigned char *at = info->si_addr, *first = closed.base + sysconf(_SC_PAGESIZE);
    if (!watching || stepping || at < first || at >= first + closed.bytes)
        on_signal(number);
    accesses++;
    stepping = 1;
    open_table(1);
    ((ucontext_t *)context)->uc_mcontext.gregs[REG_EFL] |= TRAP_FLAG;
}

static void on_trap(int number, siginfo_t *info, void *context)
{
    (void)info;
    if (!stepping)
        on_signal(number);
    stepping = 0;
    open_table(0);
    ((ucontext_t *)context)->uc_mcontext.gregs[REG_EFL] &= ~(greg_t)TRAP_FLAG;
}

static void watch(uint64_t every)
{
    struct sigaction fault = {.sa_sigaction = on_fault, .sa_flags = SA_SIGINFO}, trap = {.sa_sigaction = on_trap, .sa_flags = SA_SIGINFO};
    watch_every = every;
    if (sigaction(SIGSEGV, &fault, NULL) != 0 || sigaction(SIGTRAP, &trap, NULL) != 0)
        wrong("the driver can't watch");
}
#else
static void watch(uint64_t every)
{
    if (every)
        wrong("accesses are counted on x86-64 alone");
}
#endif

static int is_watched(enum kind kind)
{
    return watch_every && (kind == TAKE || kind == GIVE || kind == WHICH || ++watch_count % watch_every == 0);
}

/* The accesses that a call may make: none where the numbers alone decide. */
static uint64_t accesses_most(const struct call *call)
{
    if (refusal_of_numbers(call))
        return 0;
    switch (call->kind) {
    case START: return needed();
    case TAKE: return 3 * (m + 1) + 2;
    case GIVE: return 2 * (m + 1) + 2;
    case WHICH: return m ? m + 1 : 2;
    case FIGURES: return needed();
    case CHECKUP: return 5 * (UINT64_C(1) << m) - 2;
    default: wrong("no such call");
    }
    return 0;
}

/* The same call once more, on the cells of before, with its accesses counted. */
static void watched_call(const struct call *call)
{
    struct call twin = *call;
    if (mapped)
        memcpy(closed.table, before, mapped * sizeof *before);
    accesses = 0;
    watching = closed.bytes != 0;
    if (watching)
        open_table(0);
    make_call(&twin, closed.table);
    if (watching)
        open_table(1);
    watching = 0;
    if (accesses > accesses_most(call))
        wrong("more accesses than it may make");
    if (twin.refusal != call->refusal || memcmp(twin.out, call->out, sizeof twin.out) != 0)
        wrong("the same cells give two answers");
    if (mapped && memcmp(closed.table, at_end.table, mapped * sizeof *before) != 0)
        wrong("the same cells and request leave different cells");
    if (accesses > accesses_seen[call->kind])
        accesses_seen[call->kind] = accesses;
    watched_calls++;
}

static void checked_call(struct call *call)
{
    struct call twin = *call;
    snprintf(doing, sizeof doing, "m %" PRIu64 " lent %zu %s %" PRIu64, m, lent, words[call->kind], call->argument);
    if (mapped)
        memcpy(before, at_end.table, mapped * sizeof *before);
    make_call(call, at_end.table);
    check_form(call);
    check_cells(call, at_end.table);
    check_slack(&at_end);
    make_call(&twin, at_start.table);
    check_form(&twin);
    check_cells(&twin, at_start.table);
    check_slack(&at_start);
    if (twin.refusal != call->refusal || memcmp(twin.out, call->out, sizeof twin.out) != 0)
        wrong("the same cells give two answers");
    if (mapped && memcmp(at_end.table, at_start.table, mapped * sizeof *before) != 0)
        wrong("the same cells and request leave different cells");
    if (is_watched(call->kind))
        watched_call(call);
}

static void serve(enum kind kind, uint64_t argument)
{
    struct call call = {.kind = kind, .argument = argument};
    checked_call(&call);
    printf("%s %" PRIu64, words[kind], call.refusal);
    for (int i = 0; i < outs[kind]; i++)
        printf(" %" PRIu64, call.out[i]);
    printf("\n");
}

/* Campaigns: random requests on damaged tables. */

enum { RECENT = 64 };
static uint64_t recent[RECENT]; /* offsets that takes have answered */
static uint64_t count_refusals[REFUSALS], count_requests, count_flips, count_tables, count_sound;

static uint64_t huge_number(void)
{
    uint64_t number = random_bits();
    return below(2) ? number : UINT64_MAX - below(2 * PAGE);
}

static uint64_t some_n(void)
{
    switch (below(8)) {
    case 0: return below(4) ? sizes[below(SIZES)] + below(2) : 0;
    case 1:
    case 2: return 1 + below(SMALL_MOST);
    case 3: return SMALL_MOST + 1 + below(SMALL_MOST);
    case 4: return ((uint64_t)PAGE << below(m + 1)) + below(2);
    case 5:
    case 6: return below(((uint64_t)PAGE << below(m + 1)) + 2);
    default: return huge_number();
    }
}

static uint64_t some_offset(void)
{
    if (below(2))
        return recent[below(RECENT)];
    switch (below(8)) {
    case 0: return below(arena_bytes());
    case 1: return arena_bytes() - 1 + below(3);
    case 2: return huge_number();
    case 3:
    case 4: return PAGE * below(UINT64_C(1) << m);
    case 5: return 16 * below(arena_bytes() / 16);
    default: return PAGE * below(UINT64_C(1) << m) + sizes[below(SIZES)] * below(4);
    }
}

static void random_request(void)
{
    static const enum kind often[] = {TAKE, TAKE, TAKE, TAKE, GIVE, GIVE, GIVE, WHICH, WHICH, FIGURES, CHECKUP};
    struct call call = {.kind = often[below(sizeof often / sizeof *often)]};
    if (arguments[call.kind])
        call.argument = call.kind == TAKE ? some_n() : some_offset();
    checked_call(&call);
    count_requests++;
    count_refusals[call.refusal]++;
    if (call.kind == CHECKUP)
        count_sound += call.out[0];
    if (call.kind == TAKE && call.refusal == 0)
        recent[below(RECENT)] = call.out[0];
}

static void random_cells(void)
{
    for (size_t i = 0; i < mapped; i++)
        set_cell(i, random_bits());
}

/* Cells that each look likely: they lead the walks to the leaves, where random cells mostly end at the root. */
static void likely_cells(void)
{
    size_t pages = (size_t)1 << m;
    for (size_t i = 0; i < mapped; i++) {
        uint64_t room = below(3) ? below(m + 2) : below(64);
        uint64_t tag = below(3) == 0 ? 63 : below(3) ? 0 : below(SIZES + 2);
        uint64_t mask = below(3) ? random_bits() & 1023 : random_bits();
        uint64_t bitmap = below(4) ? random_bits() >> below(64) : 0;
        if (tag != 63 && i >= pages && below(2))
            tag = 1 + below(SIZES);
        set_cell(i, i >= 2 * pages ? bitmap : room + 64 * (tag + 64 * mask));
    }
}

/* A cell to damage: any, or one that a walk passes to or from the page of a recent block. */
static size_t some_cell(void)
{
    uint64_t pages = UINT64_C(1) << m, page = recent[below(RECENT)] / PAGE % pages;
    switch (below(3)) {
    case 0: return (size_t)below(needed());
    case 1: return (size_t)((pages + page) >> below(m + 1));
    default: return (size_t)(2 * pages + page);
    }
}

static void random_flips(uint64_t count)
{
    for (uint64_t i = 0; i < count; i++) {
        flip(some_cell(), below(2) ? below(64) : below(24));
        count_flips++;
    }
}

/* Start: whatever the table holds, it now stands for an arena with no live block. */
static void start_repairs(void)
{
    struct call start = {.kind = START}, checkup = {.kind = CHECKUP}, figures = {.kind = FIGURES};
    checked_call(&start);
    checked_call(&checkup);
    if (checkup.out[0] != 1)
        wrong("the table is not sound after start");
    checked_call(&figures);
    if (figures.out[0] != 0 || figures.out[1] != 0 || figures.out[2] != arena_bytes())
        wrong("the figures after start are not those of an arena with no live block");
    count_requests += 3;
    count_refusals[0] += 3;
}

/* One table: damaged at the outset or used and then damaged, some requests, then start. */
static void campaign_round(void)
{
    uint64_t kind = below(4);
    map_both(needed() + below(3));
    if (mapped == needed() && below(2))
        lent += (size_t)below(1000); /* more than there is: what lies beyond is neither read nor written */
    random_cells();
    count_tables++;
    if (kind == 1)
        likely_cells();
    if (kind >= 2) {
        start_repairs();
        for (int i = 0; i < 40; i++)
            random_request();
        random_flips(1 + below(4));
    }
    for (int i = 0; i < 32; i++) {
        random_request();
        if (kind == 3 && below(4) == 0)
            random_flips(1);
    }
    start_repairs();
}

static void campaign(uint64_t seed, uint64_t count)
{
    count_requests = count_flips = count_tables = count_sound = watched_calls = 0;
    memset(count_refusals, 0, sizeof count_refusals);
    memset(accesses_seen, 0, sizeof accesses_seen);
    memset(recent, 0, sizeof recent);
    random_state = seed;
    while (count_requests < count)
        campaign_round();
    printf("campaign m %" PRIu64 " requests %" PRIu64 " tables %" PRIu64 " flips %" PRIu64 " sound %" PRIu64 " answered %" PRIu64,
           m, count_requests, count_tables, count_flips, count_sound, count_refusals[0]);
    for (int i = 1; i < REFUSALS; i++)
        printf(" refused-%d %" PRIu64, i, count_refusals[i]);
    if (watch_every) {
        printf(" watched %" PRIu64, watched_calls);
        for (int kind = 0; kind < KINDS; kind++)
            printf(" most-%s %" PRIu64, words[kind], accesses_seen[kind]);
    }
    printf("\n");
}

/* Commands. */

static uint64_t number(void)
{
    uint64_t value;
    if (scanf("%" SCNu64, &value) != 1)
        wrong("a number is missing in the command");
    return value;
}

static void set_cells(void)
{
    size_t first = (size_t)number(), count = (size_t)number();
    for (size_t i = 0; i < count; i++) {
        uint64_t value;
        if (scanf("%" SCNx64, &value) != 1)
            wrong("a cell is missing in the command");
        set_cell(first + i, value);
    }
}

static void dump(void)
{
    printf("cells");
    for (size_t i = 0; i < mapped; i++)
        printf(" %" PRIx64, at_end.table[i]);
    printf("\n");
}

static void command(const char *word)
{
    for (int kind = 0; kind < KINDS; kind++)
        if (strcmp(word, words[kind]) == 0) {
            serve((enum kind)kind, arguments[kind] ? number() : 0);
            return;
        }
    if (strcmp(word, "m") == 0) {
        m = number();
    } else if (strcmp(word, "map") == 0) {
        map_both((size_t)number());
    } else if (strcmp(word, "lend") == 0) {
        lent = (size_t)number();
    } else if (strcmp(word, "set") == 0) {
        set_cells();
    } else if (strcmp(word, "fill") == 0) {
        random_state = number();
        random_cells();
    } else if (strcmp(word, "flip") == 0) {
        size_t at = (size_t)number();
        flip(at, number());
    } else if (strcmp(word, "dump") == 0) {
        dump();
    } else if (strcmp(word, "needed") == 0) {
        printf("needed %" PRIu64 "\n", ba_table_cells(number()));
    } else if (strcmp(word, "watch") == 0) {
        watch(number());
    } else if (strcmp(word, "campaign") == 0) {
        uint64_t seed = number(), count = number();
        m = number();
        if (m > M_MOST)
            wrong("a campaign is for an m that is not refused");
        campaign(seed, count);
    } else {
        wrong("no such command");
    }
}

int main(int count, char **values)
{
    struct itimerval limit = {.it_value.tv_sec = count > 1 ? strtol(values[1], NULL, 10) : SECONDS};
    static const int signals[] = {SIGSEGV, SIGBUS, SIGILL, SIGFPE, SIGTRAP, SIGABRT, SIGPROF};
    char word[32];
    for (size_t i = 0; i < sizeof signals / sizeof *signals; i++)
        signal(signals[i], on_signal);
    setvbuf(stdout, NULL, _IOLBF, BUFSIZ); /* whole lines at once, so that after a fault all answers before it are there */
    while (scanf("%31s", word) == 1) {
        setitimer(ITIMER_PROF, &limit, NULL);
        snprintf(doing, sizeof doing, "%s", word);
        command(word);
    }
    return 0;
}
