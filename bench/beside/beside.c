/* beside BEFORE AFTER TURNS FOLDER...: two builds of the library in one process, on the same files and the same memory, turn about. Each walk of each history is walked
 * by both in every turn, and each keeps its least processor time: in processes of their own two builds differ by what memory they are given, more than by
 * what they do. BEFORE and AFTER are shared libraries; one whose name ends in @20 takes no width, and walks over ids of 20 bytes alone. A line of the table has
 * nanoseconds for each commit listed, openings not counted, and the ratio. Both must list the same: a sum over all ids and parents is compared. */
#define _GNU_SOURCE
#include <dlfcn.h>
#include <stdint.h>
#include <stdio.h>
#include <stdlib.h>
#include <string.h>
#include <time.h>

#define RECORD 20
#define NUMBERS 8

struct bytes {
    uint8_t *at;
    size_t len;
};

struct history {
    const char *label;
    struct bytes store, graph;
    uint8_t tip[32], hidden[32];
    size_t width;
    long long commits, cutoff;
};

struct walk {
    const char *name;
    uint32_t sorting, has_cutoff, first, hides;
};

static const struct walk walks[] = {
    {"breadth", 0, 0, 0, 0}, {"newest", 1, 0, 0, 0}, {"oldest", 2, 0, 0, 0}, {"First", 0, 0, 1, 0}, {"hiding", 0, 0, 0, 1}, {"cutoff", 1, 1, 0, 0},
};

/* A build: its functions, and whether they take a width. */
struct build {
    void *places, *open, *next;
    int wide;
};

/* What a walk is lent, for both builds the same. */
struct memory {
    size_t places;
    uint8_t *names, *marks, *parents, id[32];
    uint32_t *generations, *line;
    int64_t *times, seconds[2];
    uint64_t record[RECORD], numbers[NUMBERS];
};

#define SLICE(type) type *, size_t
#define FILES SLICE(const uint8_t), SLICE(const uint8_t)
#define SETTINGS uint32_t, uint32_t, int64_t, uint32_t
#define LENT SLICE(uint8_t), SLICE(uint8_t), SLICE(uint32_t), SLICE(int64_t), SLICE(uint32_t), SLICE(uint8_t)
typedef size_t places_20(FILES, FILES);
typedef size_t places_of(uint32_t, FILES, FILES);
typedef uint32_t open_20(FILES, FILES, SLICE(const uint8_t), SETTINGS, LENT, SLICE(uint64_t), SLICE(uint64_t));
typedef uint32_t open_of(uint32_t, FILES, FILES, SLICE(const uint8_t), SETTINGS, LENT, SLICE(uint64_t), SLICE(uint64_t));
typedef uint32_t next_20(SLICE(uint64_t), FILES, FILES, SETTINGS, LENT, SLICE(uint8_t), SLICE(uint64_t), SLICE(int64_t));
typedef uint32_t next_of(uint32_t, SLICE(uint64_t), FILES, FILES, SETTINGS, LENT, SLICE(uint8_t), SLICE(uint64_t), SLICE(int64_t));

static void fail(const char *what, const char *which) {
    fprintf(stderr, "beside: %s: %s\n", what, which);
    exit(1);
}

static struct build load(char *name) {
    struct build b = {.wide = 1};
    char *mark = strstr(name, "@20");
    if (mark) {
        *mark = 0;
        b.wide = 0;
    }
    void *library = dlopen(name, RTLD_NOW | RTLD_LOCAL);
    if (!library) fail("a library that does not load", name);
    b.places = dlsym(library, "linenhatch_places");
    b.open = dlsym(library, "linenhatch_open");
    b.next = dlsym(library, "linenhatch_next");
    if (!b.places || !b.open || !b.next) fail("a library without a walk", name);
    return b;
}

static struct bytes read_file(const char *folder, const char *name) {
    char path[4096];
    snprintf(path, sizeof path, "%s/%s", folder, name);
    FILE *file = fopen(path, "rb");
    if (!file) fail("a file that is not there", path);
    fseek(file, 0, SEEK_END);
    struct bytes b = {NULL, (size_t)ftell(file)};
    rewind(file);
    b.at = malloc(b.len + 1);
    if (fread(b.at, 1, b.len, file) != b.len) fail("a file that does not read", path);
    b.at[b.len] = 0;
    fclose(file);
    return b;
}

static const char *fact(const struct bytes *facts, const char *word) {
    for (char *line = (char *)facts->at; line; line = strchr(line, '\n')) {
        line += *line == '\n';
        if (!strncmp(line, word, strlen(word))) return line + strlen(word) + 1;
    }
    fail("a fact that is not told", word);
    return NULL;
}

static size_t read_id(const char *hex, uint8_t *id) {
    unsigned byte;
    size_t n = 0;
    while (n < 32 && sscanf(hex + 2 * n, "%2x", &byte) == 1 && hex[2 * n] > ' ') id[n++] = (uint8_t)byte;
    return n;
}

static struct history read_history(const char *folder) {
    struct history h;
    const char *slash = strrchr(folder, '/');
    h.label = slash ? slash + 1 : folder;
    h.store = read_file(folder, "store");
    h.graph = read_file(folder, "graph");
    struct bytes facts = read_file(folder, "facts");
    h.width = read_id(fact(&facts, "tip"), h.tip);
    read_id(fact(&facts, "hidden"), h.hidden);
    h.commits = atoll(fact(&facts, "commits"));
    h.cutoff = atoll(fact(&facts, "cutoff"));
    free(facts.at);
    return h;
}

#define READ h->store.at, h->store.len, graph.at, graph.len
#define HIDDEN h->hidden, w->hides ? h->width : 0
#define MEMORY                                                                                                                         \
    m->names, h->width *m->places, m->marks, m->places, m->generations, m->places, m->times, m->places, m->line, 5 * m->places,        \
        m->parents, 256 * h->width

static size_t places(const struct build *b, const struct history *h, struct bytes graph, const struct walk *w) {
    if (b->wide) return ((places_of *)b->places)((uint32_t)h->width, READ, h->tip, h->width, HIDDEN);
    return ((places_20 *)b->places)(READ, h->tip, h->width, HIDDEN);
}

static uint32_t begin(const struct build *b, const struct history *h, struct bytes graph, const struct walk *w, struct memory *m) {
#define OPENING                                                                                                                        \
    READ, h->tip, h->width, HIDDEN, NULL, 0, w->sorting, w->has_cutoff, h->cutoff, w->first, MEMORY, m->record, RECORD, m->numbers, NUMBERS
    if (b->wide) return ((open_of *)b->open)((uint32_t)h->width, OPENING);
    return ((open_20 *)b->open)(OPENING);
}

static uint32_t call(const struct build *b, const struct history *h, struct bytes graph, const struct walk *w, struct memory *m) {
#define CALL                                                                                                                           \
    m->record, RECORD, READ, HIDDEN, NULL, 0, w->sorting, w->has_cutoff, h->cutoff, w->first, MEMORY, m->id, h->width, m->numbers,     \
        NUMBERS, m->seconds, 2
    if (b->wide) return ((next_of *)b->next)((uint32_t)h->width, CALL);
    return ((next_20 *)b->next)(CALL);
}

static double now(void) {
    struct timespec t;
    clock_gettime(CLOCK_THREAD_CPUTIME_ID, &t);
    return 1e9 * (double)t.tv_sec + (double)t.tv_nsec;
}

struct listed {
    uint64_t commits, sum;
};

static void add_id(struct listed *l, const uint8_t *id) {
    uint64_t word;
    memcpy(&word, id, 8);
    l->sum = ((l->sum << 5 | l->sum >> 59) ^ word) * 0x9e3779b97f4a7c15u;
}

/* Nanoseconds of a whole walk without its opening, and what was listed. */
static double walk_once(const struct build *b, const struct history *h, struct bytes graph, const struct walk *w, struct memory *m, struct listed *l) {
    uint32_t result = begin(b, h, graph, w, m);
    if (result) fail("an opening that is refused", h->label);
    l->commits = l->sum = 0;
    double start = now();
    while (!(result = call(b, h, graph, w, m))) {
        l->commits++;
        add_id(l, m->id);
        for (size_t k = 0; k < m->numbers[3]; k++) add_id(l, m->parents + h->width * k);
    }
    double end = now();
    if (result != 100) fail("a call that is refused", h->label);
    return end - start;
}

static struct memory lend(size_t width, size_t places) {
    struct memory m = {.places = places};
    m.names = calloc(places, width);
    m.marks = calloc(places, 1);
    m.generations = calloc(places, 4);
    m.times = calloc(places, 8);
    m.line = calloc(5 * places, 4);
    m.parents = calloc(256, width);
    return m;
}

static void give_back(struct memory *m) {
    free(m->names);
    free(m->marks);
    free(m->generations);
    free(m->times);
    free(m->line);
    free(m->parents);
}

/* One row: both in turn, the first of a turn by turns, each so often in a turn that it lists some 20,000 commits. */
static void row(struct build *builds, const struct history *h, struct bytes graph, const struct walk *w, int turns) {
    struct memory m = lend(h->width, places(&builds[1], h, graph, w));
    double least[2] = {1e30, 1e30};
    struct listed listed[2] = {{0, 0}, {0, 0}};
    for (int turn = 0; turn < turns; turn++) {
        for (int side = 0; side < 2; side++) {
            int which = (turn + side) % 2;
            long long again = 1 + 20000 / h->commits;
            for (long long k = 0; k < again; k++) {
                double t = walk_once(&builds[which], h, graph, w, &m, &listed[which]);
                if (t < least[which]) least[which] = t;
            }
        }
        if (listed[0].commits != listed[1].commits || listed[0].sum != listed[1].sum) fail("two lists that differ", h->label);
    }
    double n = (double)listed[0].commits;
    printf("| %s | %s | %s | %.0f | %.0f | %.3f |\n", h->label, w->name, graph.len ? "yes" : "no", least[0] / n, least[1] / n, least[1] / least[0]);
    fflush(stdout);
    give_back(&m);
}

int main(int argc, char **argv) {
    if (argc < 5) {
        fprintf(stderr, "use: beside BEFORE[@20] AFTER TURNS FOLDER...\n");
        return 2;
    }
    struct build builds[2] = {load(argv[1]), load(argv[2])};
    int turns = atoi(argv[3]);
    const char *only = getenv("WALK"), *file = getenv("GRAPH");
    for (int k = 4; k < argc; k++) {
        struct history h = read_history(argv[k]);
        for (size_t i = 0; i < sizeof walks / sizeof *walks; i++) {
            if (walks[i].first && strncmp(h.label, "real", 4)) continue;
            if (only && strcmp(only, walks[i].name)) continue;
            if (h.width != 20 && (!builds[0].wide || !builds[1].wide)) continue;
            struct bytes none = {NULL, 0};
            if (!file || !strcmp(file, "no")) row(builds, &h, none, &walks[i], turns);
            if (!file || !strcmp(file, "yes")) row(builds, &h, h.graph, &walks[i], turns);
        }
        free(h.store.at);
        free(h.graph.at);
    }
    return 0;
}
