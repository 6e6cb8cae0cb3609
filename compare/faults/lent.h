/* A part of faults.c: what is lent to the library and in which memory, the calls themselves, and the signals that may come of them. */
#include "linenhatch.h"

#include <inttypes.h>
#include <setjmp.h>
#include <signal.h>
#include <stdarg.h>
#include <stdbool.h>
#include <stdio.h>
#include <stdlib.h>
#include <string.h>
#include <sys/mman.h>
#include <sys/time.h>
#include <time.h>
#include <unistd.h>

#define PAGE 4096u
#define MOST_FILE 16777216u
#define MOST_LIST (1024u * ID)
#define FILE_ROOM (128u * PAGE) /* of a file or list that is damaged */
#define MOST_PLACES 4096u       /* that memory is lent for */
#define GUARD 0x5C              /* stands beside each lent buffer */

#define MOST_ID LINENHATCH_MAX_ID_BYTES
#define ID ((size_t)LINENHATCH_ID_BYTES(width)) /* bytes of an id */
#define ENTRY (ID + 4)                          /* of an entry of the store */
#define ROW (ID + 16)                           /* of a row of the graph */
#define PARENT_LINE (2 * ID + 8)                /* of a parent line */
#define END LINENHATCH_END
#define CLOSED LINENHATCH_CLOSED
#define SHORT LINENHATCH_BUFFER_TOO_SMALL
#define NO_ROOM LINENHATCH_NO_ROOM
#define ANY 1000u

/* ---- the width of ids: that of the base cases, and what a call is told */

static uint32_t base_width = LINENHATCH_SHA1, width = LINENHATCH_SHA1;

/* ---- what is lent */

enum { STORE, GRAPH, TIPS, HIDDEN, EXCLUDED, INPUTS };
enum { NAMES, MARKS, GENERATIONS, TIMES, LINE, PARENTS, RECORD, IDENT, NUMBERS, SECONDS, LENT };
#define MEMORY (PARENTS + 1) /* the first six are the walk's memory */

/* Pages between two that may not be touched; the library is given addresses in view, which of an input may only be read. */
struct area {
    uint8_t *view, *back;
    size_t size;
};

struct input {
    const char *name;
    struct area area;
    uint8_t *at;         /* as lent */
    size_t n;
    const uint8_t *from; /* the same bytes, out of the library's reach; null where only the pages guard them */
    bool owned;
};

struct lent {
    const char *name;
    size_t unit;  /* bytes of an element */
    size_t room;  /* in bytes */
    struct area area;
    uint8_t *now; /* what stands in it between calls */
    size_t count; /* elements that are lent */
    uint8_t *at;  /* during a call */
    size_t bytes;
    bool at_end;
};

struct settings {
    uint32_t sorting, limited;
    int64_t cutoff;
    uint32_t first;
};

static struct input input[INPUTS] = {
    [STORE] = {.name = "store"}, [GRAPH] = {.name = "graph"}, [TIPS] = {.name = "tips"},
    [HIDDEN] = {.name = "hidden"}, [EXCLUDED] = {.name = "excluded"}};

static struct lent lent[LENT] = {
    [NAMES] = {.name = "names", .unit = 1, .room = MOST_ID * MOST_PLACES},
    [MARKS] = {.name = "marks", .unit = 1, .room = MOST_PLACES},
    [GENERATIONS] = {.name = "generations", .unit = 4, .room = 4 * MOST_PLACES},
    [TIMES] = {.name = "times", .unit = 8, .room = 8 * MOST_PLACES},
    [LINE] = {.name = "line", .unit = 4, .room = 20 * MOST_PLACES},
    [PARENTS] = {.name = "parents", .unit = 1, .room = 3 * PAGE},
    [RECORD] = {.name = "record", .unit = 8, .room = PAGE},
    [IDENT] = {.name = "id", .unit = 1, .room = PAGE},
    [NUMBERS] = {.name = "numbers", .unit = 8, .room = PAGE},
    [SECONDS] = {.name = "seconds", .unit = 8, .room = PAGE}};

static struct settings settings;
static bool tested; /* walks are opened by linenhatch_open_tested */
static struct area huge; /* for files of over 16 MiB */
static bool plain;

/* ---- random numbers */

static uint64_t rng;

static uint64_t draw(void)
{
    uint64_t z = (rng += 0x9E3779B97F4A7C15u);
    z = (z ^ (z >> 30)) * 0xBF58476D1CE4E5B9u;
    z = (z ^ (z >> 27)) * 0x94D049BB133111EBu;
    return z ^ (z >> 31);
}

static uint64_t below(uint64_t n)
{
    return n ? draw() % n : 0;
}

static bool chance(unsigned percent)
{
    return below(100) < percent;
}

static void fill_random(uint8_t *at, size_t n)
{
    size_t k = 0;
    for (; k + 8 <= n; k += 8) {
        uint64_t x = draw();
        memcpy(at + k, &x, 8);
    }
    for (; k < n; k++)
        at[k] = (uint8_t)draw();
}

/* ---- the case that runs, and what failed */

static uint64_t seed = 1, case_number, made, failures;
static bool single;           /* only one case is looked at, */
static uint64_t single_case;  /* this one */
static unsigned kind, call_number;
static size_t base_number;
static const char *kind_name(unsigned k);

static bool looked_at(void)
{
    return single && case_number == single_case;
}

static void fail(const char *form, ...)
{
    if (single && !looked_at())
        return;
    failures++;
    if (failures > 20)
        return;
    printf("FAILED case %" PRIu64 " (seed %" PRIu64 ", base %zu, %s), call %u: ", case_number, seed, base_number, kind_name(kind), call_number);
    va_list arguments;
    va_start(arguments, form);
    vprintf(form, arguments);
    va_end(arguments);
    printf("\n");
}

static void stop(const char *what)
{
    perror(what);
    exit(2);
}

/* ---- big-endian numbers */

static uint32_t be32(const uint8_t *at)
{
    return (uint32_t)at[0] << 24 | (uint32_t)at[1] << 16 | (uint32_t)at[2] << 8 | at[3];
}

static void put32(uint8_t *at, uint32_t n)
{
    for (int k = 0; k < 4; k++)
        at[k] = (uint8_t)(n >> (24 - 8 * k));
}

static uint64_t be64(const uint8_t *at)
{
    return (uint64_t)be32(at) << 32 | be32(at + 4);
}

/* ---- signals in a call */

static sigjmp_buf back;
static volatile sig_atomic_t in_call, caught_signal;
static void *volatile caught_at;
static uint64_t started; /* calls */
static unsigned patience = 5;

static void on_fault(int number, siginfo_t *info, void *context)
{
    (void)context;
    if (!in_call) {
        static const char said[] = "a signal outside the library: this program is wrong\n";
        if (write(2, said, sizeof said - 1) < 0)
            _exit(3);
        _exit(2);
    }
    caught_signal = number;
    caught_at = info->si_addr;
    siglongjmp(back, 1);
}

/* Once for each second of processor time. */
static void on_second(int number, siginfo_t *info, void *context)
{
    static uint64_t last;
    static unsigned same;
    same = in_call && last == started ? same + 1 : 0;
    last = started;
    if (same >= patience)
        on_fault(number, info, context);
}

static void listen_to(int number, void (*handler)(int, siginfo_t *, void *))
{
    struct sigaction action;
    memset(&action, 0, sizeof action);
    action.sa_sigaction = handler;
    action.sa_flags = SA_SIGINFO | SA_NODEFER | SA_ONSTACK; /* the stack may be what ran out */
    if (sigaction(number, &action, NULL))
        stop("sigaction");
}

static void listen(void)
{
    static uint8_t room[16 * PAGE];
    stack_t stack = {.ss_sp = room, .ss_size = sizeof room};
    if (sigaltstack(&stack, NULL))
        stop("sigaltstack");
    static const int faults[] = {SIGSEGV, SIGBUS, SIGILL, SIGFPE, SIGTRAP, SIGABRT};
    for (size_t k = 0; k < sizeof faults / sizeof *faults; k++)
        listen_to(faults[k], on_fault);
    listen_to(SIGVTALRM, on_second);
    struct itimerval second = {{1, 0}, {1, 0}};
    if (setitimer(ITIMER_VIRTUAL, &second, NULL))
        stop("setitimer");
}

/* Whether an address lies in an area or its outer pages, and so beside which buffer it is. */
static bool named(const struct area *a, const char *name, const uint8_t *at, size_t bytes, const uint8_t *x)
{
    if (!a->view || x < a->view - PAGE || x >= a->view + a->size + PAGE)
        return false;
    fail("signal %d, %s, byte %td of %zu", (int)caught_signal, name, x - at, bytes);
    return true;
}

static void report_signal(void)
{
    const uint8_t *x = caught_at;
    if (caught_signal == SIGVTALRM) {
        fail("the call does not return");
        return;
    }
    for (size_t k = 0; k < INPUTS; k++)
        if (named(&input[k].area, input[k].name, input[k].at, input[k].n, x))
            return;
    for (size_t k = 0; k < LENT; k++)
        if (named(&lent[k].area, lent[k].name, lent[k].at, lent[k].bytes, x))
            return;
    if (!named(&huge, "a file in the large area", huge.view, huge.size, x))
        fail("signal %d at %p", (int)caught_signal, (void *)x);
}

/* ---- memory */

static struct area make_area(size_t size, bool read_only)
{
    struct area a = {.size = size};
    uint8_t *all = mmap(NULL, size + 2 * PAGE, PROT_NONE, MAP_PRIVATE | MAP_ANONYMOUS | MAP_NORESERVE, -1, 0);
    if (all == MAP_FAILED)
        stop("mmap");
    int file = memfd_create("lent", 0);
    if (file < 0 || ftruncate(file, (off_t)size))
        stop("memfd_create");
    a.view = mmap(all + PAGE, size, read_only ? PROT_READ : PROT_READ | PROT_WRITE, MAP_SHARED | MAP_FIXED, file, 0);
    a.back = read_only ? mmap(NULL, size, PROT_READ | PROT_WRITE, MAP_SHARED, file, 0) : a.view;
    if (a.view == MAP_FAILED || a.back == MAP_FAILED)
        stop("mmap");
    close(file);
    return a;
}

static void make_areas(void)
{
    huge = make_area(MOST_FILE + 4 * PAGE, true);
    for (size_t k = 0; k < INPUTS && !plain; k++)
        input[k].area = make_area(FILE_ROOM, true);
    for (size_t k = 0; k < LENT; k++) {
        lent[k].now = calloc(1, lent[k].room);
        if (!lent[k].now)
            stop("calloc");
        if (!plain)
            lent[k].area = make_area(lent[k].room, false);
    }
}

static void *fresh(size_t bytes)
{
    void *at = malloc(bytes);
    if (!at)
        stop("malloc");
    return at;
}

static void give_back_input(struct input *i)
{
    if (i->owned)
        free(i->at);
    i->owned = false;
}

/* Lends n bytes as an input, at the end or at the start of its pages. */
static void lend_input(unsigned k, const uint8_t *from, size_t n)
{
    struct input *i = &input[k];
    give_back_input(i);
    i->n = n;
    i->from = from;
    if (plain) {
        i->at = fresh(n);
        i->owned = true;
        memcpy(i->at, from, n);
        return;
    }
    size_t start = draw() & 1 ? i->area.size - n : 0;
    memcpy(i->area.back + start, from, n);
    i->at = i->area.view + start;
}

/* The guards beside a lent buffer that ends or starts at an outer page: at most a page of them, on its other side. */
static uint8_t *beside(const struct lent *b, size_t *n)
{
    size_t free_bytes = b->area.size - b->bytes;
    *n = free_bytes < PAGE ? free_bytes : PAGE;
    return b->at_end ? b->at - *n : b->at + b->bytes;
}

static void lend(struct lent *b)
{
    b->bytes = b->count * b->unit;
    if (plain) {
        b->at = fresh(b->bytes);
    } else {
        b->at_end = draw() & 1;
        b->at = b->at_end ? b->area.view + b->area.size - b->bytes : b->area.view;
        size_t n;
        uint8_t *guards = beside(b, &n);
        memset(guards, GUARD, n);
    }
    memcpy(b->at, b->now, b->bytes);
}

static void lend_all(void)
{
    for (size_t k = 0; k < LENT; k++)
        lend(&lent[k]);
}

/* Takes the buffers back as the call left them. */
static void take_back(void)
{
    for (size_t k = 0; k < LENT; k++) {
        memcpy(lent[k].now, lent[k].at, lent[k].bytes);
        if (plain)
            free(lent[k].at);
    }
}

/* ---- the calls themselves */

static size_t places_given;

static uint32_t call_places(void)
{
    places_given = linenhatch_places(
        width, input[STORE].at, input[STORE].n, input[GRAPH].at, input[GRAPH].n, input[TIPS].at, input[TIPS].n, input[HIDDEN].at, input[HIDDEN].n);
    return 0;
}

#ifdef FAULTY
#include "spoiled.h"
#else
#define spoiled_open(result) (result)
#define spoiled_next(result) (result)
#endif

static uint32_t call_open(void)
{
    const struct input *i = input;
    const struct lent *b = lent;
    return spoiled_open((tested ? linenhatch_open_tested : linenhatch_open)(
        width, i[STORE].at, i[STORE].n, i[GRAPH].at, i[GRAPH].n, i[TIPS].at, i[TIPS].n, i[HIDDEN].at, i[HIDDEN].n, i[EXCLUDED].at, i[EXCLUDED].n,
        settings.sorting, settings.limited, settings.cutoff, settings.first,
        b[NAMES].at, b[NAMES].count, b[MARKS].at, b[MARKS].count, (uint32_t *)b[GENERATIONS].at, b[GENERATIONS].count,
        (int64_t *)b[TIMES].at, b[TIMES].count, (uint32_t *)b[LINE].at, b[LINE].count, b[PARENTS].at, b[PARENTS].count,
        (uint64_t *)b[RECORD].at, b[RECORD].count, (uint64_t *)b[NUMBERS].at, b[NUMBERS].count));
}

static uint32_t call_next(void)
{
    const struct input *i = input;
    const struct lent *b = lent;
    return spoiled_next(linenhatch_next(
        width, (uint64_t *)b[RECORD].at, b[RECORD].count,
        i[STORE].at, i[STORE].n, i[GRAPH].at, i[GRAPH].n, i[HIDDEN].at, i[HIDDEN].n, i[EXCLUDED].at, i[EXCLUDED].n,
        settings.sorting, settings.limited, settings.cutoff, settings.first,
        b[NAMES].at, b[NAMES].count, b[MARKS].at, b[MARKS].count, (uint32_t *)b[GENERATIONS].at, b[GENERATIONS].count,
        (int64_t *)b[TIMES].at, b[TIMES].count, (uint32_t *)b[LINE].at, b[LINE].count, b[PARENTS].at, b[PARENTS].count,
        b[IDENT].at, b[IDENT].count, (uint64_t *)b[NUMBERS].at, b[NUMBERS].count, (int64_t *)b[SECONDS].at, b[SECONDS].count));
}

static double longest;        /* seconds of processor time of a call */
static uint64_t longest_case; /* and where it was */
static unsigned longest_kind;

/* Makes a call; false where it ended in a signal, which is reported. */
static bool guarded(uint32_t (*call)(void), uint32_t *result)
{
    struct timespec before, after;
    started++;
    if (sigsetjmp(back, 0)) {
        in_call = 0;
        report_signal();
        return false;
    }
    clock_gettime(CLOCK_THREAD_CPUTIME_ID, &before);
    in_call = 1;
    *result = call();
    in_call = 0;
    clock_gettime(CLOCK_THREAD_CPUTIME_ID, &after);
    double took = (double)(after.tv_sec - before.tv_sec) + 1e-9 * (double)(after.tv_nsec - before.tv_nsec);
    if (took > longest) {
        longest = took;
        longest_case = case_number;
        longest_kind = kind;
    }
    return true;
}
