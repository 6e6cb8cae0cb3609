/* A part of faults.c: what is checked after every call. */

/* ---- what a walk must keep to while nothing of it is touched */

#define MOST_TURNS 8192u
#define CALL_BYTES (8u * LINENHATCH_NUMBERS)
#define SECONDS_BYTES (8u * LINENHATCH_SECONDS)
#define FARTHEST (14 * 60 + 59) /* minutes of a zone */

struct base {
    const uint8_t *part[INPUTS];
    size_t n[INPUTS];
    struct settings settings;
    size_t places;
    uint32_t opening;  /* the result of its opening with all the memory */
    uint32_t tested;   /* and of its tested opening */
    uint64_t *answers; /* each call's answer, made into one number */
    size_t turns;
};

struct walk {
    bool untouched;  /* the memory, the record, the files, the lists and the settings are the walk's own */
    bool foreign;    /* something else was lent to this call alone */
    bool other_width; /* this call alone is told the other width than the opening was */
    bool tested;     /* the opening was a tested one */
    size_t places, turn, handed;
    uint64_t used;   /* commits handed out or refused */
    bool ended;
};

static struct base *bases, *base;
static size_t base_count;
static bool referenced;  /* the inputs and the settings are those of the base */
static bool reference;   /* the base's own walk is being taken down */
static struct walk walk;
static uint8_t handed_out[MOST_TURNS][MOST_ID];
static uint64_t taken_down[MOST_TURNS];

static const uint64_t *words(unsigned k)
{
    return (const uint64_t *)lent[k].at;
}

/* An answer as one number: FNV-1a over its fields and the ids in parents. */
static uint64_t digest(uint32_t result)
{
    uint64_t h = 0xCBF29CE484222325u;
    uint64_t parents = ID * words(NUMBERS)[LINENHATCH_PARENT_IDS];
    const struct {
        const void *at;
        size_t n;
    } parts[] = {{&result, sizeof result}, {lent[IDENT].at, ID}, {lent[NUMBERS].at, CALL_BYTES}, {lent[SECONDS].at, SECONDS_BYTES},
                 {lent[PARENTS].at, parents < lent[PARENTS].bytes ? parents : lent[PARENTS].bytes}};
    for (size_t k = 0; k < sizeof parts / sizeof *parts; k++)
        for (size_t j = 0; j < parts[k].n; j++)
            h = (h ^ ((const uint8_t *)parts[k].at)[j]) * 0x100000001B3u;
    return h;
}

static void check_handed(void)
{
    for (size_t k = 0; k < walk.handed; k++)
        if (!memcmp(handed_out[k], lent[IDENT].at, ID))
            fail("a commit is handed out twice");
    memcpy(handed_out[walk.handed++], lent[IDENT].at, ID);
}

/* A call on untouched memory: not 12, the sum, the end by call P + 2 and then again, no refusal at all after a tested opening, and where the
 * walk is the base's, its answer. */
static void check_untouched(uint32_t result)
{
    const uint64_t *n = words(NUMBERS);
    if (result == CLOSED)
        fail("12 on untouched memory");
    if (walk.tested && result != 0 && result != END)
        fail("%" PRIu32 " after a tested opening", result);
    walk.used += result == 0 || (result != END && n[LINENHATCH_STRUCK] < n[LINENHATCH_ADMITTED]);
    if (n[LINENHATCH_ADMITTED] != walk.used + n[LINENHATCH_STRUCK] + n[LINENHATCH_WAITING])
        fail("the numbers do not add up");
    if ((walk.ended || walk.turn >= walk.places + 1) && result != END)
        fail("no end: %" PRIu32, result);
    walk.ended |= result == END;
    if (walk.turn >= MOST_TURNS)
        return;
    if (result == 0)
        check_handed();
    if (reference)
        taken_down[walk.turn] = digest(result);
    else if (referenced && walk.turn < base->turns && base->answers[walk.turn] != digest(result))
        fail("another answer than of the same walk before");
    walk.turn++;
}

/* ---- checks of every call */

static bool same(unsigned k, size_t from)
{
    return from >= lent[k].bytes || !memcmp(lent[k].at + from, lent[k].now + from, lent[k].bytes - from);
}

static void check_same(unsigned k, size_t from, const char *when)
{
    if (!same(k, from))
        fail("%s is altered %s", lent[k].name, when);
}

static void check_zeros(unsigned k, size_t n, const char *when)
{
    for (size_t j = 0; j < n; j++)
        if (lent[k].at[j]) {
            fail("%s is not zeros %s", lent[k].name, when);
            return;
        }
}

static void check_guards(void)
{
    static uint8_t guards[PAGE];
    if (!guards[0])
        memset(guards, GUARD, PAGE);
    for (size_t k = 0; k < LENT; k++) {
        size_t n;
        const uint8_t *at = beside(&lent[k], &n);
        if (memcmp(at, guards, n))
            fail("memory beside %s is altered", lent[k].name);
    }
}

/* What holds after any call: nothing beside a buffer is altered, and no input. */
static void check_around(void)
{
    if (!plain) {
        check_guards();
        return;
    }
    for (size_t k = 0; k < INPUTS; k++)
        if (input[k].from && memcmp(input[k].at, input[k].from, input[k].n))
            fail("%s is altered", input[k].name);
}

static size_t needed(unsigned k, size_t places)
{
    switch (k) {
    case NAMES: return ID * places;
    case LINE: return 5 * places;
    case PARENTS: return LINENHATCH_PARENTS(width);
    default: return places;
    }
}

static bool memory_short(void)
{
    if (places_given > MOST_PLACES)
        return true;
    for (unsigned k = 0; k < MEMORY; k++)
        if (lent[k].count < needed(k, places_given))
            return true;
    return false;
}

/* N of a graph file with a good layout: the last number of OIDF. */
static size_t graph_count(void)
{
    const uint8_t *g = input[GRAPH].at;
    for (size_t k = 0; input[GRAPH].n && k < g[6]; k++)
        if (!memcmp(g + 8 + 12 * k, "OIDF", 4))
            return be32(g + be64(g + 8 + 12 * k + 4) + 1020);
    return 0;
}

/* Whether a result is of what is reached, which a tested opening alone looks at. */
static bool of_the_reach(uint32_t result)
{
    return result >= LINENHATCH_UNREADABLE_REACH && result <= LINENHATCH_PAIR_NOT_FALLING;
}

/* Document 01's P, where the graph is none or was found good. */
static void check_places(uint32_t result)
{
    bool good = result == 0 || result == 1 || result == 7 || result == 8 || of_the_reach(result);
    if (input[GRAPH].n && !good)
        return;
    size_t asked = input[TIPS].n / ID + input[HIDDEN].n / ID + input[STORE].n / PARENT_LINE + graph_count();
    if (places_given != asked)
        fail("%zu places for %zu", places_given, asked);
}

static uint32_t base_opening(void)
{
    return tested ? base->tested : base->opening;
}

/* The result of an opening where it is known beforehand, else ANY. */
static uint32_t opening_asked(void)
{
    if (lent[RECORD].count < LINENHATCH_RECORD || lent[NUMBERS].count < 3)
        return NO_ROOM;
    bool ragged = false;
    for (unsigned k = 0; k < INPUTS; k++) {
        if (input[k].n > (k <= GRAPH ? MOST_FILE : MOST_LIST))
            return LINENHATCH_INPUT_TOO_LARGE;
        ragged |= k > GRAPH && input[k].n % ID;
    }
    if (ragged)
        return LINENHATCH_PARTIAL_ID;
    if (!referenced || reference)
        return ANY;
    bool of_the_input = base->opening >= 2 && base->opening <= 6;
    return memory_short() && !of_the_input ? SHORT : base_opening();
}

/* Whether a result of an opening can be. */
static bool opening_can(uint32_t result)
{
    bool timed = settings.sorting == LINENHATCH_NEWEST || settings.sorting == LINENHATCH_OLDEST;
    switch (result) {
    case 0: return !memory_short();
    case 1: return memory_short();
    case 2:
    case 3: return opening_asked() == result;
    case 5:
    case 6: return input[GRAPH].n > 0;
    case 7:
    case 8: return timed && !memory_short();
    case LINENHATCH_UNREADABLE_REACH:
    case LINENHATCH_PAIR_NOT_FALLING: return tested && !memory_short();
    case LINENHATCH_GRAPH_AT_ODDS: return tested && !memory_short() && input[GRAPH].n > 0;
    default: return result <= 8;
    }
}

/* After 13 to 15 all of the walk's memory but parents is free. */
static void check_refused_opening(uint32_t result)
{
    for (unsigned k = of_the_reach(result) ? PARENTS : NAMES; k < MEMORY; k++)
        check_same(k, 0, "by a refused opening");
    check_zeros(RECORD, 8 * LINENHATCH_RECORD, "after a refused opening");
    check_zeros(NUMBERS, 24, "after a refused opening");
}

static void check_accepted_opening(void)
{
    const uint64_t *n = words(NUMBERS);
    check_same(PARENTS, 0, "by an opening");
    if (words(RECORD)[0] != 1)
        fail("the record of an accepted opening is closed");
    if (words(RECORD)[LINENHATCH_RECORD - 1] != (ID == LINENHATCH_SHA256 ? ID : 0))
        fail("the record of an opening has another width");
    if (n[LINENHATCH_STRUCK] || n[LINENHATCH_ADMITTED] != n[LINENHATCH_WAITING])
        fail("the numbers of an opening do not add up");
}

static void check_open(uint32_t result)
{
    uint32_t asked = opening_asked();
    check_around();
    check_same(IDENT, 0, "by an opening");
    check_same(SECONDS, 0, "by an opening");
    if ((result > 8 && result != NO_ROOM && !of_the_reach(result)) || (asked != ANY && result != asked))
        fail("an opening gives %" PRIu32 " for %" PRIu32, result, asked);
    if (lent[RECORD].count < LINENHATCH_RECORD || lent[NUMBERS].count < 3) {
        for (unsigned k = 0; k < LENT; k++)
            check_same(k, 0, "where there is no room");
        return;
    }
    check_places(result);
    if (!opening_can(result))
        fail("an opening cannot give %" PRIu32 " here", result);
    check_same(RECORD, 8 * LINENHATCH_RECORD, "past its words");
    check_same(NUMBERS, 24, "past an opening's");
    if (result)
        check_refused_opening(result);
    else
        check_accepted_opening();
}

/* A zone is within 14 hours and 59 minutes of UTC, and a commit from the graph has none. */
static void check_zone(void)
{
    const uint64_t *n = words(NUMBERS);
    int64_t minutes = ((const int64_t *)lent[SECONDS].at)[LINENHATCH_ZONE];
    if (n[LINENHATCH_HAS_ZONE] > 1 || minutes < -FARTHEST || minutes > FARTHEST)
        fail("a zone out of bounds");
    if (minutes && !n[LINENHATCH_HAS_ZONE])
        fail("minutes where there is no zone");
    if (n[LINENHATCH_HAS_ZONE] && n[LINENHATCH_HAS_GENERATION])
        fail("a zone of a commit from the graph");
}

/* The numbers, id and seconds of an answer, other than 12. */
static void check_answer(uint32_t result)
{
    const uint64_t *n = words(NUMBERS);
    uint64_t parents = n[LINENHATCH_PARENT_IDS];
    if (parents > 256 || ID * parents > lent[PARENTS].bytes) {
        fail("%" PRIu64 " parents", parents);
        return;
    }
    check_same(PARENTS, ID * parents, "past the ids given");
    if (((result == END || result == 9) && parents) || (result == 11 && parents && parents != 256))
        fail("%" PRIu64 " parents beside %" PRIu32, parents, result);
    if (n[LINENHATCH_HAS_GENERATION] > 1 || n[LINENHATCH_HAS_TIME] > 1 || n[LINENHATCH_GENERATION] >> 30)
        fail("a generation or time out of bounds");
    if (n[LINENHATCH_GENERATION] && !n[LINENHATCH_HAS_GENERATION])
        fail("a generation where there is none");
    if (!n[LINENHATCH_HAS_TIME])
        check_zeros(SECONDS, 8, "where there are none");
    check_zone();
    if (result == 0)
        return;
    check_zeros(IDENT, ID, "beside a refusal or an end");
    check_zeros(SECONDS, SECONDS_BYTES, "beside a refusal or an end");
    if (n[LINENHATCH_HAS_GENERATION] || n[LINENHATCH_GENERATION] || n[LINENHATCH_HAS_TIME] || n[LINENHATCH_HAS_ZONE])
        fail("a generation, time or zone beside a refusal or an end");
}

/* A record that is given back holds six yes or no, a number of 32 bits in its tenth word, and a width in its last. */
static void check_words(void)
{
    for (unsigned k = 0; k < 6; k++)
        if (words(RECORD)[k] > 1)
            fail("word %u of the record is neither yes nor no", k);
    if (words(RECORD)[9] >> 32)
        fail("word 9 of the record is over 32 bits");
    uint64_t wide = words(RECORD)[LINENHATCH_RECORD - 1];
    if (wide && wide != LINENHATCH_SHA256)
        fail("the last word of the record is no kind's");
}

static void check_closed(void)
{
    for (unsigned k = 0; k <= RECORD; k++)
        check_same(k, 0, "by 12");
    check_zeros(IDENT, ID, "beside 12");
    check_zeros(NUMBERS, CALL_BYTES, "beside 12");
    check_zeros(SECONDS, SECONDS_BYTES, "beside 12");
}

static bool no_room(void)
{
    return lent[RECORD].count < LINENHATCH_RECORD || lent[IDENT].count < ID || lent[NUMBERS].count < LINENHATCH_NUMBERS ||
           lent[SECONDS].count < LINENHATCH_SECONDS;
}

static bool known_next(uint32_t result)
{
    return result == 0 || result == END || (result >= 9 && result <= 12);
}

static void check_next(uint32_t result)
{
    check_around();
    if (walk.other_width) { /* a walk of one width, a call of the other: safe, and some result */
        if (!known_next(result) && result != NO_ROOM)
            fail("a call with the other width gives %" PRIu32, result);
        return;
    }
    if (no_room()) {
        if (result != NO_ROOM)
            fail("a call without room gives %" PRIu32, result);
        for (unsigned k = 0; k < LENT; k++)
            check_same(k, 0, "where there is no room");
        return;
    }
    if (!known_next(result))
        fail("a call gives %" PRIu32, result);
    check_same(RECORD, 8 * LINENHATCH_RECORD, "past its words");
    check_same(IDENT, ID, "past the id");
    check_same(NUMBERS, CALL_BYTES, "past a call's");
    check_same(SECONDS, SECONDS_BYTES, "past the zone");
    if (((const uint64_t *)lent[RECORD].now)[0] != 1 && result != CLOSED)
        fail("a closed record gives %" PRIu32, result);
    if (result == CLOSED) {
        check_closed();
    } else {
        check_words();
        check_answer(result);
    }
    if (walk.untouched && !walk.foreign)
        check_untouched(result);
}

/* ---- calls with their checks and counts */

enum { NEXT_RESULTS = 7 };
static const uint32_t next_result[NEXT_RESULTS] = {0, 9, 10, 11, 12, END, NO_ROOM};
enum { OPEN_RESULTS = 13 };
static const uint32_t open_result[OPEN_RESULTS] = {0, 1, 2, 3, 4, 5, 6, 7, 8, 13, 14, 15, NO_ROOM};
static uint64_t opened[64][OPEN_RESULTS], called[64][NEXT_RESULTS], cases[64];

/* The number of places for the inputs that are lent. */
static bool ask_places(void)
{
    uint32_t nothing;
    return guarded(call_places, &nothing);
}

/* An opening; its result, or ANY where it ended in a signal. */
static uint32_t open_walk(void)
{
    uint32_t result = ANY;
    call_number++;
    made++;
    lend_all();
    if (guarded(call_open, &result)) {
        check_open(result);
        for (unsigned k = 0; k < OPEN_RESULTS; k++)
            opened[kind][k] += result == open_result[k];
        if (looked_at())
            printf("opening %u: %" PRIu32 ", places %zu\n", call_number, result, places_given);
    }
    take_back();
    walk = (struct walk){.untouched = result == 0, .places = places_given, .tested = tested};
    return result;
}

static uint32_t next(void)
{
    uint32_t result = ANY;
    call_number++;
    made++;
    lend_all();
    if (guarded(call_next, &result)) {
        check_next(result);
        for (unsigned k = 0; k < NEXT_RESULTS; k++)
            called[kind][k] += result == next_result[k];
        if (looked_at())
            printf("call %u: %" PRIu32 "%s\n", call_number, result, walk.untouched && !walk.foreign ? "" : ", touched");
    }
    take_back();
    walk.untouched &= !walk.foreign || result == CLOSED || result == NO_ROOM; /* after these the walk is as it was */
    return result;
}
