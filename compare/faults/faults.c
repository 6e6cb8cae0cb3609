/* faults CASES: calls the library with damaged files, lists, memory, records and lengths, and checks after every call what documents 01 and
 * 02 promise there; half of the cases open tested. CASES is a file of base cases (cases.py). Ends with status 0 if nothing failed.
 *
 * Every lent buffer ends, or starts, at a page that may not be touched, and the files and lists stand in pages that may only be read, so
 * that an access outside a buffer and a write to a file are signals. Each case is drawn from the seed and its number alone.
 *
 *     --seed N      other cases
 *     --width N     the ids of the base cases have 32 bytes, or with any other number 20
 *     --calls N     at least so many openings and next calls (5,000,000)
 *     --only N      the case with this number alone, each call printed
 *     --plain       every buffer from malloc, anew for each call, so that valgrind sees its ends
 *     --blank       walks over memory that nobody has written to, for valgrind
 *     --watchdog N  a call may take N seconds of processor time (5)
 *     --fault N     only if built with -DFAULTY: the library spoiled in one way, which must be reported
 */
#define _GNU_SOURCE
#include "lent.h"
#include "checks.h"
#include "damage.h"

/* ---- kinds of openings */

/* What is damaged before the opening; the walk goes on over it. */
static void open_damaged(unsigned k, void (*damage)(unsigned))
{
    load_base();
    for (unsigned tries = 0; tries < 8 && work_n[k] < 28 && k <= GRAPH; tries++) {
        choose_base();
        load_base();
    }
    damage(k);
    lend_work(k);
    referenced = false;
    if (begin(chance(20) ? 40 : 0) != ANY)
        go_on(NULL, FEW_CALLS);
}

static void store_cut(void) { open_damaged(STORE, cut); }
static void store_flipped(void) { open_damaged(STORE, flip); }
static void store_scrambled(void) { open_damaged(STORE, scramble); }
static void store_spliced(void) { open_damaged(STORE, splice); }
static void store_renumbered(void) { open_damaged(STORE, renumber); }
static void store_reworded(void) { open_damaged(STORE, reword); }
static void graph_cut(void) { open_damaged(GRAPH, cut); }
static void graph_flipped(void) { open_damaged(GRAPH, flip); }
static void graph_scrambled(void) { open_damaged(GRAPH, scramble); }
static void graph_spliced(void) { open_damaged(GRAPH, splice); }
static void graph_renumbered(void) { open_damaged(GRAPH, renumber); }
static void graph_moved(void) { open_damaged(GRAPH, move_chunk); }

static unsigned some_list(void)
{
    return TIPS + (unsigned)below(3);
}

static void lists_ragged(void) { open_damaged(some_list(), ragged_list); }

static void as_lent(void)
{
    load_base();
    if (begin(chance(50) ? 0 : 40) != ANY)
        go_on(NULL, MOST_TURNS);
}

static void other_lists_and_settings(void)
{
    load_base();
    for (unsigned k = TIPS; k < INPUTS; k++)
        if (chance(60)) {
            other_list(k, below(8));
            lend_work(k);
        }
    if (chance(60))
        odd_settings();
    referenced = false;
    if (begin(0) != ANY)
        go_on(NULL, FEW_CALLS);
}

static void lists_long(void)
{
    static const size_t ids[] = {1, 200, 1023, 1024, 1024, 1025, 1026, 3000};
    load_base();
    unsigned k = some_list();
    other_list(k, ids[below(8)]);
    lend_work(k);
    referenced = false;
    if (begin(0) != ANY)
        go_on(NULL, 4);
}

/* The store and the graph exchanged, or each cut or filled up to the other's length. */
static void files_exchanged(void)
{
    static uint8_t kept[FILE_ROOM];
    load_base();
    size_t store = work_n[STORE], graph = work_n[GRAPH];
    if (chance(50)) {
        memcpy(kept, work[STORE], store);
        memcpy(work[STORE], work[GRAPH], graph);
        memcpy(work[GRAPH], kept, store);
    } else {
        if (graph > store)
            fill_random(work[STORE] + store, graph - store);
        else
            fill_random(work[GRAPH] + graph, store - graph);
    }
    work_n[STORE] = graph;
    work_n[GRAPH] = store;
    lend_work(STORE);
    lend_work(GRAPH);
    referenced = false;
    if (begin(0) != ANY)
        go_on(NULL, FEW_CALLS);
}

/* A file of n bytes, about 16 MiB: the base's file with zeros put in before its entries or its checksum, so that its layout may hold. */
static void lend_huge(unsigned k, size_t n)
{
    size_t old = work_n[k], tail = k == STORE ? ENTRY * (size_t)be32(work[STORE] + old - 4) + 8 : ID, more = n - old;
    size_t start = chance(50) ? huge.size - n : 0;
    uint8_t *at = huge.back + start;
    memset(huge.back, 0, huge.size);
    memcpy(at, work[k], old - tail);
    memcpy(at + n - tail, work[k] + old - tail, tail);
    if (k == STORE) {
        put32(at + n - 8, be32(at + n - 8) + (uint32_t)more);
        if (tail > 8)
            put32(at + n - 12, be32(at + n - 12) + (uint32_t)more);
    } else {
        size_t last = 8 + 12 * (size_t)at[6] + 4;
        put32(at + last + 4, be32(at + last + 4) + (uint32_t)more);
    }
    give_back_input(&input[k]);
    input[k].at = huge.view + start;
    input[k].n = n;
    input[k].from = NULL;
}

static bool whole_store(void)
{
    size_t n = work_n[STORE];
    return n >= 8 && (uint64_t)be32(work[STORE] + n - 8) + ENTRY * (uint64_t)be32(work[STORE] + n - 4) + 8 == n;
}

static void files_huge(void)
{
    static const size_t sizes[] = {MOST_FILE - 4, MOST_FILE, MOST_FILE, MOST_FILE + 1, MOST_FILE + 4, MOST_FILE + PAGE};
    load_base();
    unsigned k = chance(50) ? STORE : GRAPH;
    for (unsigned tries = 0; tries < 20 && (!whole_store() || work_n[GRAPH] < 60); tries++) {
        choose_base();
        load_base();
    }
    if (!whole_store() || work_n[GRAPH] < 60)
        return;
    bool later = chance(30); /* only lent to the calls */
    if (later && begin(0) == ANY)
        return;
    lend_huge(k, sizes[below(6)]);
    referenced = false;
    walk.foreign = later;
    if (!later && begin(0) == ANY)
        return;
    go_on(NULL, 4);
    load_base(); /* so that no input stays in the large area */
}

/* Makes some of these buffers shorter: by one, to less than half, or to nothing. */
static void shorten(unsigned from, unsigned to)
{
    unsigned sure = from + (unsigned)below(to - from);
    for (unsigned k = from; k < to; k++)
        if (k == sure || chance(15)) {
            size_t n = lent[k].count;
            lent[k].count = !n || chance(20) ? 0 : chance(50) ? n - 1 : below(n / 2 + 1);
        }
}

static void opening_short(void)
{
    load_base();
    if (!ask_places())
        return;
    size_lent(places_given, 0);
    fill_all();
    shorten(NAMES, MEMORY);
    if (open_walk() == ANY)
        return;
    go_on(NULL, 2);
    size_lent(places_given, 0);
    if (open_walk() != ANY)
        go_on(NULL, FEW_CALLS);
}

static void opening_without_room(void)
{
    load_base();
    if (!ask_places())
        return;
    size_lent(places_given, 0);
    fill_all();
    if (chance(50))
        lent[RECORD].count = chance(50) ? LINENHATCH_RECORD - 1 : below(LINENHATCH_RECORD);
    else
        lent[NUMBERS].count = below(3);
    if (chance(20))
        shorten(NAMES, MEMORY);
    if (open_walk() == ANY)
        return;
    go_on(NULL, 2);
    size_lent(places_given, 3);
    fill_all();
    if (open_walk() != ANY)
        go_on(NULL, FEW_CALLS);
}

/* The base's files and lists, with the other width; or with a number that is neither, which is SHA-1. */
static void opening_of_the_other_width(void)
{
    static const uint32_t odd[] = {0, 1, 19, 21, 31, 33, 64, 0x14000000u, 0x20000000u, UINT32_MAX};
    load_base();
    width = chance(70) ? (base_width == LINENHATCH_SHA256 ? LINENHATCH_SHA1 : LINENHATCH_SHA256) : odd[below(10)];
    referenced = LINENHATCH_ID_BYTES(width) == LINENHATCH_ID_BYTES(base_width);
    if (begin(chance(50) ? 0 : 40) != ANY)
        go_on(NULL, FEW_CALLS);
}

/* ---- what comes between the calls of a walk */

static uint64_t *record(void)
{
    return (uint64_t *)lent[RECORD].now;
}

static void refill(void)
{
    fill(GENERATIONS);
    fill(PARENTS);
    fill(IDENT);
    fill(NUMBERS);
    fill(SECONDS);
}

/* A call with other lengths; then the walk goes on with the right ones. */
static void call_with_lengths(unsigned from, unsigned to)
{
    size_t kept[LENT];
    for (unsigned k = 0; k < LENT; k++)
        kept[k] = lent[k].count;
    bool foreign = walk.foreign;
    shorten(from, to);
    walk.foreign = true;
    next();
    walk.foreign = foreign;
    for (unsigned k = 0; k < LENT; k++)
        lent[k].count = kept[k];
}

/* A call that is told the other width than the opening was. */
static void call_with_width(void)
{
    bool foreign = walk.foreign;
    width = LINENHATCH_ID_BYTES(width) == LINENHATCH_SHA256 ? LINENHATCH_SHA1 : LINENHATCH_SHA256;
    walk.foreign = walk.other_width = true;
    next();
    walk.foreign = foreign;
    walk.other_width = false;
    width = base_width;
}

static void short_memory(void) { call_with_lengths(NAMES, MEMORY); }
static void short_answer(void) { call_with_lengths(RECORD, LENT); }

/* A call with another record; where it says 12 the walk goes on with the right one. */
static void call_with_record(const uint64_t *other)
{
    uint64_t kept[LINENHATCH_RECORD];
    memcpy(kept, record(), sizeof kept);
    memcpy(record(), other, sizeof kept);
    bool foreign = walk.foreign;
    walk.foreign = true;
    uint32_t result = next();
    walk.foreign = foreign;
    if (result == CLOSED)
        memcpy(record(), kept, sizeof kept);
}

/* A word for a record: small, near the number of places, near what stands there, or such that a product of it with 5 or an id's bytes runs over. */
static uint64_t odd_word(uint64_t old)
{
    switch (below(14)) {
    case 0: return 0;
    case 1: return 1;
    case 2: return 2;
    case 3: return old + 1;
    case 4: return old - 1;
    case 5: return UINT64_MAX - below(3);
    case 6: return walk.places + below(5) - 2;
    case 7: return below(walk.places + 1);
    case 8: return UINT64_C(1) << below(64);
    case 9: return UINT64_MAX / (chance(50) ? 5 : ID) + below(3);
    case 10: return (UINT64_C(1) << 32) - 2 + below(4);
    case 11: return old ^ UINT64_C(1) << below(64);
    case 12: return 5 * walk.places + below(5) - 2;
    default: return draw();
    }
}

static void one_word(void)
{
    uint64_t other[LINENHATCH_RECORD];
    memcpy(other, record(), sizeof other);
    unsigned k = (unsigned)below(LINENHATCH_RECORD);
    other[k] = odd_word(other[k]);
    call_with_record(other);
}

static void random_words(void)
{
    uint64_t other[LINENHATCH_RECORD];
    for (unsigned k = 0; k < LINENHATCH_RECORD; k++)
        other[k] = chance(30) ? record()[k] : k < 6 && chance(80) ? below(2) : odd_word(record()[k]);
    if (chance(80))
        other[0] = 1;
    if (chance(60))
        other[6] = chance(50) ? walk.places : below(walk.places + 1);
    if (chance(80))
        other[LINENHATCH_RECORD - 1] = record()[LINENHATCH_RECORD - 1];
    call_with_record(other);
}

static void closed_record(void)
{
    uint64_t other[LINENHATCH_RECORD] = {0};
    if (chance(70)) {
        memcpy(other, record(), sizeof other);
        do
            other[0] = chance(50) ? 0 : odd_word(1);
        while (other[0] == 1);
    }
    call_with_record(other);
}

static uint64_t earlier_record[LINENHATCH_RECORD];

static void earlier(void)
{
    uint64_t other[LINENHATCH_RECORD];
    memcpy(other, earlier_record, sizeof other);
    if (chance(30))
        memcpy(earlier_record, record(), sizeof other);
    call_with_record(other);
}

static uint8_t *earlier_memory[MEMORY];

static void keep_memory(void)
{
    for (unsigned k = 0; k < MEMORY; k++) {
        if (!earlier_memory[k])
            earlier_memory[k] = fresh(lent[k].room);
        memcpy(earlier_memory[k], lent[k].now, lent[k].count * lent[k].unit);
    }
}

/* Some of the memory as it was before. */
static void put_back(void)
{
    walk.untouched = false;
    for (unsigned k = 0; k < MEMORY; k++)
        if (chance(50))
            memcpy(lent[k].now, earlier_memory[k], lent[k].count * lent[k].unit);
}

/* Bits flipped, bytes or elements made others, or all of it. */
static void touch(unsigned k)
{
    uint8_t *at = lent[k].now;
    size_t n = lent[k].count * lent[k].unit, some = 1 + below(8);
    walk.untouched = false;
    if (!n)
        return;
    unsigned how = (unsigned)below(10);
    if (how == 0) {
        fill(k);
        return;
    }
    for (; some; some--) {
        size_t bit = below(n), element = lent[k].unit * below(lent[k].count);
        if (how < 4)
            at[bit] ^= (uint8_t)(1u << below(8));
        else if (how < 6)
            fill_random(at + element, lent[k].unit);
        else if (how < 8)
            memmove(at + element, at + lent[k].unit * below(lent[k].count), lent[k].unit);
        else
            at[bit] = (uint8_t)below(32);
    }
}

static void touch_names(void)
{
    if (chance(50) && lent[NAMES].count >= ID) {
        walk.untouched = false;
        some_id(lent[NAMES].now + ID * below(lent[NAMES].count / ID));
    } else {
        touch(NAMES);
    }
}

/* Some bits set or taken away in every mark. */
static void touch_marks(void)
{
    uint8_t bits = (uint8_t)(1u << below(5) | 1u << below(8));
    bool set = chance(50);
    if (chance(60)) {
        touch(MARKS);
        return;
    }
    walk.untouched = false;
    for (size_t k = 0; k < lent[MARKS].count; k++)
        lent[MARKS].now[k] = (uint8_t)(set ? lent[MARKS].now[k] | bits : lent[MARKS].now[k] & ~bits);
}

static void touch_times(void) { touch(TIMES); }

/* Small numbers in line, about the number of places, or any. */
static void touch_line(void)
{
    if (chance(50) && lent[LINE].count) {
        walk.untouched = false;
        uint32_t x = (uint32_t)odd_word(walk.places);
        memcpy(lent[LINE].now + 4 * below(lent[LINE].count), &x, 4);
    } else {
        touch(LINE);
    }
}

static void touch_all(void)
{
    for (unsigned k = 0; k < MEMORY; k++)
        if (chance(50))
            touch(k);
}

/* Another input than at the opening, for some calls or for all that come. */
static void other_input(unsigned k)
{
    if (chance(30)) {
        load(k);
        return;
    }
    load(k);
    if (k <= GRAPH)
        damage_file(k);
    else
        damage_list(k);
    lend_work(k);
    walk.foreign = true;
}

static void other_store(void) { other_input(STORE); }
static void other_graph(void) { other_input(GRAPH); }
static void other_lists(void) { other_input(HIDDEN + (unsigned)below(2)); }

static void other_settings(void)
{
    odd_settings();
    walk.foreign = true;
}

/* The files, lists and settings of another base case. */
static void other_base(void)
{
    choose_base();
    load_base();
    walk.foreign = true;
}

/* An opening that is refused, over the same memory; then the walk goes on with the record it had. */
static void refused_opening(void)
{
    uint8_t kept[LINENHATCH_RECORD * 8];
    struct walk before = walk;
    memcpy(kept, record(), sizeof kept);
    unsigned k = some_list();
    if (chance(50) || work_n[STORE] < 8) {
        ragged_list(k);
    } else {
        k = STORE;
        work[k][work_n[k] - 1 - below(8)] ^= 1;
    }
    lend_work(k);
    referenced = false;
    ask_places();
    open_walk();
    load(k);
    referenced = true;
    ask_places();
    memcpy(record(), kept, sizeof kept);
    walk = before;
}

/* ---- kinds of walks */

/* Opens over a base case that can be opened, and goes on with something between the calls. */
static void disturbed(void (*disturb)(void), size_t more)
{
    for (unsigned tries = 0; tries < 20 && base_opening(); tries++)
        choose_base();
    load_base();
    uint32_t result = begin(more);
    if (result == ANY)
        return;
    memcpy(earlier_record, record(), sizeof earlier_record);
    keep_memory();
    go_on(disturb, base->turns + FEW_CALLS);
}

static void refilled(void) { disturbed(refill, chance(50) ? 0 : 40); }
static void next_short(void) { disturbed(short_memory, 0); }
static void next_without_room(void) { disturbed(short_answer, 0); }
static void next_other_width(void) { disturbed(call_with_width, chance(50) ? 0 : 40); }
static void record_word(void) { disturbed(one_word, chance(50) ? 0 : 300); }
static void record_random(void) { disturbed(random_words, chance(50) ? 0 : 300); }
static void record_earlier(void) { disturbed(earlier, 0); }
static void record_closed(void) { disturbed(closed_record, 0); }
static void memory_earlier(void) { disturbed(put_back, 0); }
static void names_touched(void) { disturbed(touch_names, 0); }
static void marks_touched(void) { disturbed(touch_marks, 0); }
static void times_touched(void) { disturbed(touch_times, 0); }
static void line_touched(void) { disturbed(touch_line, 0); }
static void all_touched(void) { disturbed(touch_all, 0); }
static void next_other_store(void) { disturbed(other_store, 0); }
static void next_other_graph(void) { disturbed(other_graph, 0); }
static void next_other_lists(void) { disturbed(other_lists, 0); }
static void next_other_settings(void) { disturbed(other_settings, 0); }
static void next_other_base(void) { disturbed(other_base, chance(50) ? 0 : 300); }
static void opened_between(void) { disturbed(refused_opening, 0); }

/* A record that could be, over memory that could be: ids of the files, small marks, slots in the line. */
static void make_up(void)
{
    uint64_t *r = record(), cap = walk.places;
    if (chance(20))
        cap = below(cap + 1);
    for (size_t k = 0; k + ID <= lent[NAMES].count; k += ID)
        some_id(lent[NAMES].now + k);
    unsigned bits = 1 + (unsigned)below(8);
    for (size_t k = 0; k < lent[MARKS].count; k++)
        lent[MARKS].now[k] = (uint8_t)(chance(50) ? 8 : below(1u << bits));
    for (size_t k = 0; k < lent[LINE].count; k++) {
        uint32_t slot = (uint32_t)(chance(98) ? below(cap) : odd_word(cap));
        memcpy(lent[LINE].now + 4 * k, &slot, 4);
    }
    for (unsigned k = 0; k < 6; k++)
        r[k] = below(2);
    r[0] = chance(95);
    r[6] = cap;
    r[7] = below(cap);
    r[8] = below(cap + 1);
    r[9] = below(cap + 2);
    r[10] = r[8] + below(cap + 1);
    r[11] = below(r[10] + 1);
    r[LINENHATCH_RECORD - 1] = chance(90) ? ID : odd_word(ID);
    if (chance(20))
        r[6 + below(6)] = odd_word(cap);
}

static void made_up(void)
{
    load_base();
    if (chance(30)) {
        unsigned k = chance(50) ? STORE : GRAPH;
        damage_file(k);
        lend_work(k);
    }
    if (chance(50))
        odd_settings();
    if (!ask_places())
        return;
    size_lent(places_given, chance(50) ? 0 : 40);
    fill_all();
    walk = (struct walk){.places = places_given > MOST_PLACES ? MOST_PLACES : places_given};
    make_up();
    go_on(NULL, FEW_CALLS);
}

/* No walk at all: random bytes everywhere, of lengths that go with some number of places or do not. */
static void all_random(void)
{
    load_base();
    for (unsigned k = 0; k < INPUTS; k++)
        if (chance(40)) {
            scramble(k);
            lend_work(k);
        }
    odd_settings();
    size_t places = below(chance(80) ? 40 : 400);
    size_lent(places, chance(50) ? 0 : 100);
    if (chance(20))
        shorten(NAMES, LENT);
    fill_all();
    walk = (struct walk){.places = places};
    if (lent[RECORD].count >= LINENHATCH_RECORD) {
        for (unsigned k = 0; k < LINENHATCH_RECORD; k++)
            record()[k] = k < 6 ? below(2) : odd_word(places);
        record()[0] = chance(90);
        record()[6] = chance(80) ? places : odd_word(places);
        record()[LINENHATCH_RECORD - 1] = chance(80) ? ID : odd_word(places);
    }
    go_on(NULL, 8);
}

static void anything(void)
{
    static void (*const all[])(void) = {
        refill, short_memory, short_answer, one_word, random_words, earlier, closed_record, put_back, touch_names, touch_marks,
        touch_times, touch_line, touch_all, call_with_width, other_store, other_graph, other_lists, other_settings, other_base};
    all[below(sizeof all / sizeof *all)]();
}

static void all_at_once(void)
{
    disturbed(anything, chance(50) ? 0 : 60);
}

#include "parting.h"
#include "writing.h"
#include "feeding.h"
#include "tracing.h"
#include "counting.h"

static const struct {
    const char *name;
    void (*run)(void);
    unsigned weight;
} kinds[] = {
    {"the base cases", as_lent, 0},
    {"as lent, in other memory", as_lent, 4},
    {"generations, parents, answer refilled", refilled, 4},
    {"opening: store cut", store_cut, 4},
    {"opening: store bits flipped", store_flipped, 8},
    {"opening: store random bytes", store_scrambled, 6},
    {"opening: store spliced", store_spliced, 4},
    {"opening: store numbers altered", store_renumbered, 6},
    {"opening: store letters altered", store_reworded, 8},
    {"opening: graph cut", graph_cut, 4},
    {"opening: graph bits flipped", graph_flipped, 8},
    {"opening: graph random bytes", graph_scrambled, 6},
    {"opening: graph spliced", graph_spliced, 4},
    {"opening: graph numbers altered", graph_renumbered, 10},
    {"opening: graph chunks moved", graph_moved, 4},
    {"opening: files exchanged", files_exchanged, 4},
    {"opening: other lists, settings", other_lists_and_settings, 6},
    {"opening: ragged lists", lists_ragged, 4},
    {"opening: lists to 3,000 ids", lists_long, 1},
    {"files of about 16 MiB", files_huge, 1},
    {"opening: short memory", opening_short, 6},
    {"opening: no room for the answer", opening_without_room, 6},
    {"opening: the other width", opening_of_the_other_width, 6},
    {"call: the other width", next_other_width, 6},
    {"call: short memory", next_short, 6},
    {"call: no room for the answer", next_without_room, 6},
    {"record: one word altered", record_word, 10},
    {"record: random words", record_random, 8},
    {"record: an earlier one", record_earlier, 6},
    {"record: closed", record_closed, 6},
    {"memory: an earlier one", memory_earlier, 6},
    {"names touched", names_touched, 8},
    {"marks touched", marks_touched, 8},
    {"times touched", times_touched, 8},
    {"line touched", line_touched, 8},
    {"all memory touched", all_touched, 8},
    {"call: other store", next_other_store, 12},
    {"call: other graph", next_other_graph, 16},
    {"call: other lists", next_other_lists, 8},
    {"call: other settings", next_other_settings, 6},
    {"call: files of another walk", next_other_base, 6},
    {"a refused opening between calls", opened_between, 4},
    {"record and memory made up", made_up, 10},
    {"all random", all_random, 6},
    {"all of these at once", all_at_once, 10},
    {"where two series part", parted, 20},
    {"writing graph files", written, 20},
    {"feed reports", fed, 20},
    {"tracing by turns", traced, 20},
    {"reports by terms", counted, 20},
};
#define KINDS (sizeof kinds / sizeof *kinds)

static const char *kind_name(unsigned k)
{
    return kinds[k].name;
}

/* ---- the run */

static void start_case(uint64_t number)
{
    case_number = number;
    call_number = 0;
    rng = seed * 0xD1342543DE82EF95u + number;
    draw();
    referenced = reference = tested = false;
    width = base_width;
    walk = (struct walk){0};
}

/* What a plain opening refuses a tested one does, with the same number. */
static void check_base(void)
{
    bool same = base->opening == base->tested || (base->opening == 0 && of_the_reach(base->tested));
    if (!same)
        fail("a tested opening gives %" PRIu32 " where a plain one gives %" PRIu32, base->tested, base->opening);
}

/* Case number k, below the number of bases, is base k as it is; its answers are taken down. */
static void take_down(size_t k)
{
    start_case(k);
    kind = 0;
    base_number = k;
    base = &bases[k];
    cases[kind]++;
    load_base();
    reference = true;
    tested = true;
    base->tested = begin(0);
    tested = false;
    base->opening = begin(0);
    base->places = places_given;
    if (base->opening == ANY)
        base->opening = SHORT;
    check_base();
    go_on(NULL, MOST_TURNS);
    base->turns = base->opening ? 0 : walk.turn;
    base->answers = fresh(base->turns * sizeof *base->answers);
    memcpy(base->answers, taken_down, base->turns * sizeof *base->answers);
}

static void run_case(uint64_t number)
{
    unsigned all = 0, k = 0;
    for (unsigned j = 0; j < KINDS; j++)
        all += kinds[j].weight;
    start_case(number);
    tested = chance(50);
    choose_base();
    for (uint64_t x = below(all); x >= kinds[k].weight; k++)
        x -= kinds[k].weight;
    kind = k;
    cases[k]++;
    kinds[k].run();
}

/* Walks over memory that nobody has written to. What the library gives is compared with the base's own walk, so that valgrind reports
 * an answer, or a step towards one, that depends on such memory. */
static void blank_walk(size_t k, bool by_test)
{
    start_case(k);
    tested = by_test;
    base_number = k;
    base = &bases[k];
    load_base();
    size_lent(base->places, 0);
    for (unsigned j = 0; j < LENT; j++) {
        lent[j].bytes = lent[j].count * lent[j].unit;
        lent[j].at = fresh(lent[j].bytes);
    }
    uint32_t result;
    if (!guarded(call_open, &result))
        return;
    made++;
    if (result != base_opening() || words(RECORD)[0] != (result == 0))
        fail("an opening over blank memory gives %" PRIu32, result);
    for (size_t turn = 0; turn < (result ? 0 : base->turns); turn++) {
        if (!guarded(call_next, &result))
            return;
        made++;
        if (digest(result) != base->answers[turn])
            fail("another answer over blank memory");
    }
    for (unsigned j = 0; j < LENT; j++)
        free(lent[j].at);
}

static void print_row(const char *name, uint64_t count, const uint64_t *o, const uint64_t *c)
{
    printf("%-33s%8" PRIu64 " |", name, count);
    for (unsigned k = 0; k < OPEN_RESULTS; k++)
        printf("%7" PRIu64, o[k]);
    printf(" |");
    for (unsigned k = 0; k < NEXT_RESULTS; k++)
        printf("%8" PRIu64, c[k]);
    printf("\n");
}

static void print_table(void)
{
    uint64_t o[OPEN_RESULTS] = {0}, c[NEXT_RESULTS] = {0}, count = 0, openings = 0, calls = 0;
    printf("%-33s%8s | openings by result%73s | next calls by result\n%-33s%8s |", "", "", "", "", "cases");
    for (unsigned k = 0; k < OPEN_RESULTS; k++)
        printf("%7" PRIu32, open_result[k]);
    printf(" |");
    for (unsigned k = 0; k < NEXT_RESULTS; k++)
        printf("%8" PRIu32, next_result[k]);
    printf("\n");
    for (unsigned k = 0; k < KINDS; k++) {
        print_row(kinds[k].name, cases[k], opened[k], called[k]);
        count += cases[k];
        for (unsigned j = 0; j < OPEN_RESULTS; j++)
            o[j] += opened[k][j];
        for (unsigned j = 0; j < NEXT_RESULTS; j++)
            c[j] += called[k][j];
    }
    print_row("all", count, o, c);
    for (unsigned j = 0; j < OPEN_RESULTS; j++)
        openings += o[j];
    for (unsigned j = 0; j < NEXT_RESULTS; j++)
        calls += c[j];
    printf("%" PRIu64 " openings and %" PRIu64 " next calls; the longest call took %.1f ms (case %" PRIu64 ", %s)\n", openings, calls,
           1000 * longest, longest_case, kind_name(longest_kind));
    print_partings();
    print_writings();
    print_feedings();
    print_tracings();
    print_countings();
}

static uint64_t calls = 5000000;
static bool blank;

/* An option with a number; false where there is none of this name. */
static bool option(const char *name, uint64_t value)
{
    if (!strcmp(name, "--seed"))
        seed = value;
    else if (!strcmp(name, "--calls"))
        calls = value;
    else if (!strcmp(name, "--only"))
        single = true, single_case = value;
    else if (!strcmp(name, "--width"))
        base_width = (uint32_t)value;
    else if (!strcmp(name, "--watchdog"))
        patience = (unsigned)value;
#ifdef FAULTY
    else if (!strcmp(name, "--fault"))
        fault = (unsigned)value;
#endif
    else
        return false;
    return true;
}

/* The file of base cases, null where the options are wrong. */
static const char *options(int count, char **given)
{
    const char *path = NULL;
    for (int k = 1; k < count; k++) {
        if (!strcmp(given[k], "--plain"))
            plain = true;
        else if (!strcmp(given[k], "--blank"))
            blank = plain = true;
        else if (given[k][0] != '-')
            path = given[k];
        else if (k + 1 == count || !option(given[k], strtoull(given[k + 1], NULL, 10)))
            return NULL;
        else
            k++;
    }
    return path;
}

static void run(void)
{
    for (size_t k = 0; k < base_count; k++)
        take_down(k);
    if (single) {
        if (single_case >= base_count)
            run_case(single_case);
    } else if (blank) {
        made = 0;
        for (size_t k = 0; k < base_count && made < calls; k++) {
            blank_walk(k, false);
            blank_walk(k, true);
        }
        printf("%" PRIu64 " openings and next calls over blank memory\n", made);
    } else {
        for (uint64_t k = base_count; made < calls; k++)
            run_case(k);
        print_table();
    }
}

int main(int count, char **given)
{
    const char *path = options(count, given);
    if (!path) {
        fprintf(stderr, "faults CASES [--seed N] [--width N] [--calls N] [--only N] [--plain] [--blank] [--watchdog N]\n");
        return 2;
    }
    setvbuf(stdout, NULL, _IOLBF, 0);
    make_areas();
    read_bases(path);
    listen();
    run();
    printf("%" PRIu64 " failed\n", failures);
    return failures ? 1 : 0;
}
