/* A part of faults.c: the base cases, memory for a walk over them, and damage to files, lists and settings. */

/* ---- the base cases */

static uint8_t work[INPUTS][FILE_ROOM]; /* the inputs, to be damaged */
static size_t work_n[INPUTS];

/* Reads one case of the comparison's format, and gives back where the next begins. */
static const uint8_t *read_base(struct base *b, const uint8_t *at)
{
    for (unsigned k = 0; k < INPUTS; k++) {
        b->n[k] = be32(at);
        b->part[k] = at + 4;
        at += 4 + b->n[k];
    }
    b->settings.sorting = at[0] > 2 ? at[0] - 2u : at[0];
    b->settings.limited = at[0] > 2;
    b->settings.cutoff = (int64_t)be64(at + 1);
    b->settings.first = at[9];
    return at + 14;
}

static void read_bases(const char *path)
{
    FILE *file = fopen(path, "rb");
    if (!file || fseek(file, 0, SEEK_END))
        stop(path);
    size_t n = (size_t)ftell(file);
    rewind(file);
    uint8_t *all = fresh(n);
    if (fread(all, 1, n, file) != n)
        stop(path);
    fclose(file);
    for (const uint8_t *at = all; at < all + n;) {
        bases = realloc(bases, (base_count + 1) * sizeof *bases);
        if (!bases)
            stop("realloc");
        memset(&bases[base_count], 0, sizeof *bases);
        at = read_base(&bases[base_count++], at);
    }
}

static void lend_work(unsigned k)
{
    lend_input(k, work[k], work_n[k]);
}

static void load(unsigned k)
{
    work_n[k] = base->n[k];
    memcpy(work[k], base->part[k], base->n[k]);
    lend_work(k);
}

/* Lends the inputs and settings of the base. */
static void load_base(void)
{
    for (unsigned k = 0; k < INPUTS; k++)
        load(k);
    settings = base->settings;
    referenced = true;
}

static void choose_base(void)
{
    base_number = below(base_count);
    base = &bases[base_number];
}

/* ---- memory for a walk */

/* As many elements as asked for this many places, and some more. */
static void size_lent(size_t places, size_t more)
{
    const size_t other[LENT] = {[RECORD] = LINENHATCH_RECORD, [IDENT] = ID, [NUMBERS] = LINENHATCH_NUMBERS, [SECONDS] = LINENHATCH_SECONDS};
    if (places > MOST_PLACES)
        places = MOST_PLACES;
    for (unsigned k = 0; k < LENT; k++) {
        struct lent *b = &lent[k];
        b->count = (k < MEMORY ? needed(k, places) : other[k]) + (more ? below(more + 1) : 0);
        if (b->count * b->unit > b->room)
            b->count = b->room / b->unit;
    }
}

static void fill(unsigned k)
{
    unsigned how = (unsigned)below(4);
    if (how < 2)
        fill_random(lent[k].now, lent[k].count * lent[k].unit);
    else
        memset(lent[k].now, how == 2 ? 0 : 255, lent[k].count * lent[k].unit);
}

static void fill_all(void)
{
    for (unsigned k = 0; k < LENT; k++)
        fill(k);
}

/* Lends memory for the inputs and opens. */
static uint32_t begin(size_t more)
{
    if (!ask_places())
        return ANY;
    size_lent(places_given, more);
    fill_all();
    return open_walk();
}

/* Calls until three in a row are ends or 12, each but the first perhaps after something else. */
static void go_on(void (*disturb)(void), size_t most)
{
    unsigned quiet = 0;
    if (reference)
        most = MOST_TURNS;
    for (size_t k = 0; k < most && quiet < 3; k++) {
        if (disturb && chance(40))
            disturb();
        uint32_t result = next();
        if (result == ANY)
            return;
        quiet = result == END || result == CLOSED ? quiet + 1 : 0;
    }
}

#define FEW_CALLS 40u

/* ---- damage of bytes */

static void flip(unsigned k)
{
    for (uint64_t times = 1 + below(6); times && work_n[k]; times--)
        work[k][below(work_n[k])] ^= (uint8_t)(1u << below(8));
}

static void scramble(unsigned k)
{
    if (chance(25)) { /* all of it */
        work_n[k] = below(chance(50) ? 64 : 4096);
        fill_random(work[k], work_n[k]);
        return;
    }
    size_t from = below(work_n[k] + 1), n = below(work_n[k] - from + 1);
    if (chance(60) && n > 16)
        n = 1 + below(16);
    fill_random(work[k] + from, n);
}

/* Puts bytes in, takes some away, or copies some over others. */
static void splice(unsigned k)
{
    size_t n = work_n[k], from = below(n + 1), some = 1 + below(40);
    if (chance(33) && n + some <= FILE_ROOM) {
        memmove(work[k] + from + some, work[k] + from, n - from);
        fill_random(work[k] + from, some);
        work_n[k] += some;
    } else if (from + some <= n && chance(50)) {
        memmove(work[k] + from, work[k] + from + some, n - from - some);
        work_n[k] -= some;
    } else if (from + some <= n) {
        memmove(work[k] + from, work[k] + below(n - some + 1), some);
    }
}

/* The places of numbers that a file's layout rests on. */
static size_t number_in_store(void)
{
    size_t n = work_n[STORE];
    uint64_t start = be32(work[STORE] + n - 8), count = be32(work[STORE] + n - 4);
    if (chance(40) || !count || start + ENTRY * count + 8 != n)
        return n - 4 * (1 + below(2));
    return start + ENTRY * below(count) + ID;
}

/* In the chunk table, and in OIDF, CDAT (parents, generation and seconds) and EDGE. */
static size_t number_in_graph(void)
{
    const uint8_t *g = work[GRAPH];
    size_t n = work_n[GRAPH], chunks = g[6];
    size_t row = 8 + 12 * below(chunks + 1);
    if (chance(25) || 20 + 12 * chunks > n || row + 24 > n)
        return row + 12 <= n ? row + 4 * below(3) : 4;
    uint64_t from = be64(g + row + 4), to = be64(g + row + 16);
    if (from >= to || to + 4 > n || chance(10))
        return 4;
    if (!memcmp(g + row, "CDAT", 4))
        return from + ROW * below((to - from) / ROW) + ID + 4 * below(4);
    return from + 4 * below((to - from) / 4);
}

static size_t some_number(unsigned k)
{
    return k == STORE ? number_in_store() : number_in_graph();
}

/* Takes the end away: a few bytes, at a number or within it, or at any place. */
static void cut(unsigned k)
{
    size_t n = work_n[k], left = below(n + 1);
    unsigned how = (unsigned)below(4);
    if (how == 0 && n >= 28)
        left = some_number(k) + below(4);
    else if (how == 1)
        left = n - 1 - below(60);
    else if (how == 2 && chance(20))
        left = below(9);
    work_n[k] = left < n ? left : 0;
}

static uint32_t odd_number(uint32_t old, size_t n)
{
    switch (below(16)) {
    case 0: return 0;
    case 1: return 1;
    case 2: return old + 1;
    case 3: return old - 1;
    case 4: return (uint32_t)n;
    case 5: return (uint32_t)(n - 8 + below(16));
    case 6: return UINT32_MAX - (uint32_t)below(2);
    case 7: return 0x80000000u + (uint32_t)below(4) - 1;
    case 8: return 0x70000000u;
    case 9: return 0x80000000u | (uint32_t)below(20);
    case 10: return old ^ 1u << below(32);
    case 11: return UINT32_MAX / (uint32_t)ENTRY + (uint32_t)below(3);
    case 12: return (uint32_t)below(64);
    case 13: return (uint32_t)(n - below(64));
    case 14: return old + (uint32_t)ENTRY * ((uint32_t)below(5) - 2);
    default: return (uint32_t)draw();
    }
}

static void renumber(unsigned k)
{
    for (uint64_t times = 1 + below(3); times && work_n[k] >= 28; times--) {
        size_t at = some_number(k), other = some_number(k);
        if (at + 4 > work_n[k])
            continue;
        uint32_t old = be32(work[k] + at);
        if (chance(25) && other + 4 <= work_n[k]) { /* exchanged */
            put32(work[k] + at, be32(work[k] + other));
            put32(work[k] + other, old);
        } else {
            put32(work[k] + at, odd_number(old, work_n[k]));
        }
    }
}

/* Moves a chunk: about the file's end or start, about another chunk, or so far that a sum runs over. */
static void move_chunk(unsigned k)
{
    size_t n = work_n[k], chunks = n > 6 ? work[k][6] : 0;
    if (k != GRAPH || 20 + 12 * chunks > n)
        return;
    uint8_t *at = work[k] + 12 + 12 * below(chunks + 1);
    uint64_t offset = be64(at);
    switch (below(6)) {
    case 0: offset = n - below(64); break;
    case 1: offset = n + below(64); break;
    case 2: offset = UINT64_MAX - below(chance(50) ? 64 : 40000); break;
    case 3: offset = be64(work[k] + 12 + 12 * below(chunks + 1)) + below(80) - 40; break;
    case 4: offset += below(80) - 40; break;
    default: offset = below(n); break;
    }
    put32(at, (uint32_t)(offset >> 32));
    put32(at + 4, (uint32_t)offset);
}

/* Other letters in the bodies, of those that header lines are made of. */
static void reword(unsigned k)
{
    static const char letters[] = "0123456789-<> \nabf+treepnauhocmi";
    uint64_t bodies = k == STORE && work_n[k] >= 8 ? be32(work[k] + work_n[k] - 8) : work_n[k];
    if (!bodies || bodies > work_n[k])
        return;
    for (uint64_t times = 1 + below(8); times; times--) {
        size_t at = below(bodies);
        for (uint64_t run = chance(30) ? 1 + below(20) : 1; run && at < bodies; run--)
            work[k][at++] = (uint8_t)letters[chance(50) ? below(10) : below(sizeof letters - 1)];
    }
}

static void damage_file(unsigned k)
{
    void (*const how[])(unsigned) = {cut, flip, scramble, splice, renumber, k == STORE ? reword : move_chunk};
    how[below(6)](k);
}

/* ---- damage of lists */

/* An id of the base's files, or a random one. */
static void some_id(uint8_t *out)
{
    const uint8_t *s = base->part[STORE];
    size_t n = base->n[STORE];
    uint64_t start = n < 8 ? 0 : be32(s + n - 8), count = n < 8 ? 0 : be32(s + n - 4);
    if (chance(90) && count && start + ENTRY * count + 8 == n)
        memcpy(out, s + start + ENTRY * below(count), ID);
    else if (chance(80) && base->n[TIPS] >= ID)
        memcpy(out, base->part[TIPS] + ID * below(base->n[TIPS] / ID), ID);
    else
        fill_random(out, ID);
}

static void other_list(unsigned k, size_t ids)
{
    work_n[k] = ID * ids;
    bool strange = chance(20);
    for (size_t j = 0; j < ids; j++) {
        some_id(work[k] + ID * j);
        if (strange)
            fill_random(work[k] + ID * j, ID);
    }
}

static void ragged_list(unsigned k)
{
    size_t n = work_n[k] + 1 + below(ID - 1);
    fill_random(work[k] + work_n[k], n - work_n[k]);
    work_n[k] = chance(50) && work_n[k] ? work_n[k] - 1 - below(work_n[k] < ID - 1 ? work_n[k] : ID - 1) : n;
}

static void damage_list(unsigned k)
{
    if (chance(40))
        other_list(k, below(chance(30) ? 400 : 6));
    else if (chance(50))
        ragged_list(k);
    else
        flip(k);
}

static void odd_settings(void)
{
    static const uint32_t odd[] = {0, 1, 2, 3, 255, 256, 257, UINT32_MAX, 0x80000000u, 1u << 16};
    struct settings s = {odd[below(10)], odd[below(10)], 0, odd[below(10)]};
    if (chance(50))
        s.sorting = (uint32_t)below(3);
    if (chance(50))
        s.first = 0;
    s.cutoff = chance(50) ? base->settings.cutoff : chance(50) ? (int64_t)draw() : chance(50) ? INT64_MIN : INT64_MAX;
    settings = s;
}
