/* A part of faults.c: the call for where two series part, over damaged stores, tips of any length and memory that may be too short. The first list
 * is lent as one tip, the hidden list as the other. */

static bool exchanged; /* the tips */
static uint64_t partings[6];
static const uint32_t parting_result[6] = {0, 1, 4, 13, 23, NO_ROOM};

#ifdef FAULTY
/* The library spoiled in one way, as in spoiled.h. */
static uint32_t spoiled_parting(uint32_t result)
{
    uint64_t *numbers = (uint64_t *)lent[NUMBERS].at;
    if (fault == 40 && (result == 1 || result == 4) && lent[MARKS].bytes) /* a refusal before the search alters a lent byte */
        lent[MARKS].at[0] ^= 1;
    if (fault == 41 && result == 13) /* an id beside a refusal */
        lent[IDENT].at[3] = 1;
    if (fault == 42 && result == 0 && lent[PARENTS].bytes) /* parents is written to */
        lent[PARENTS].at[0] ^= 1;
    if (fault == 43 && result == 0 && exchanged && numbers[0]) /* another commit with the tips exchanged */
        lent[IDENT].at[ID - 1] ^= 1;
    if (fault == 44 && result == 13) /* a result that is none of this call's */
        return 9;
    if (fault == 45 && result == NO_ROOM) /* the number of a ragged list */
        return 3;
    return result;
}
#else
#define spoiled_parting(result) (result)
#endif

static uint32_t call_parting(void)
{
    const struct input *one = &input[exchanged ? HIDDEN : TIPS], *other = &input[exchanged ? TIPS : HIDDEN];
    const struct lent *b = lent;
    return spoiled_parting(linenhatch_merge_base(
        width, input[STORE].at, input[STORE].n, one->at, one->n, other->at, other->n,
        b[NAMES].at, b[NAMES].count, b[MARKS].at, b[MARKS].count, (uint32_t *)b[GENERATIONS].at, b[GENERATIONS].count,
        (const int64_t *)b[TIMES].at, b[TIMES].count, (uint32_t *)b[LINE].at, b[LINE].count, b[PARENTS].at, b[PARENTS].count,
        b[IDENT].at, b[IDENT].count, (uint64_t *)b[NUMBERS].at, b[NUMBERS].count));
}

static bool no_room_to_part(void)
{
    return input[TIPS].n < ID || input[HIDDEN].n < ID || lent[IDENT].count < ID || lent[NUMBERS].count < LINENHATCH_BASE_NUMBERS;
}

/* What is said: an id where there is a commit, else zeros. */
static void check_parting_answer(uint32_t result)
{
    uint64_t has = words(NUMBERS)[LINENHATCH_HAS_BASE];
    check_same(IDENT, ID, "past the id");
    check_same(NUMBERS, 8 * LINENHATCH_BASE_NUMBERS, "past the number of a parting");
    if (has > 1 || (result && has))
        fail("a parting has the number %" PRIu64 " beside %" PRIu32, has, result);
    if (!has)
        check_zeros(IDENT, ID, "where two series have no parting commit");
}

static void check_parting(uint32_t result)
{
    static const unsigned kept[] = {TIMES, PARENTS, RECORD, SECONDS};
    bool known = false;
    check_around();
    for (unsigned k = 0; k < sizeof kept / sizeof *kept; k++)
        check_same(kept[k], 0, "by a parting");
    if (no_room_to_part()) {
        if (result != NO_ROOM)
            fail("a parting without room gives %" PRIu32, result);
        for (unsigned k = 0; k < LENT; k++)
            check_same(k, 0, "where there is no room");
        return;
    }
    for (unsigned k = 0; k < 5; k++)
        known |= result == parting_result[k];
    if (!known || (result != LINENHATCH_CORRUPT_STORE && (result == SHORT) != memory_short()))
        fail("a parting gives %" PRIu32, result);
    for (unsigned k = 0; k < MEMORY && (result == SHORT || result == LINENHATCH_CORRUPT_STORE); k++)
        check_same(k, 0, "by a parting that is refused before the search");
    check_parting_answer(result);
}

/* One call; its result, or ANY where it ended in a signal. */
static uint32_t part(void)
{
    uint32_t result = ANY;
    call_number++;
    made++;
    lend_all();
    if (guarded(call_parting, &result)) {
        check_parting(result);
        for (unsigned k = 0; k < 6; k++)
            partings[k] += result == parting_result[k];
        if (looked_at())
            printf("parting %u: %" PRIu32 ", places %zu\n", call_number, result, places_given);
    }
    take_back();
    return result;
}

/* A tip: an id of the files or any, another behind it now and then, or a part of one. */
static void some_tip(unsigned k)
{
    other_list(k, 1 + chance(20));
    if (chance(5))
        work_n[k] = below(ID);
    lend_work(k);
}

/* The call with the tips as drawn and exchanged, over memory filled anew: the same is said. */
static void parted(void)
{
    uint64_t kept[4] = {0};
    load_base();
    if (chance(50)) {
        damage_file(STORE);
        lend_work(STORE);
    }
    some_tip(TIPS);
    some_tip(HIDDEN);
    referenced = false;
    places_given = 2 + input[STORE].n / PARENT_LINE;
    size_lent(places_given, chance(50) ? 0 : 40);
    if (chance(25))
        shorten(NAMES, MEMORY);
    if (chance(10))
        shorten(IDENT, SECONDS);
    for (unsigned turn = 0; turn < 2; turn++) {
        uint64_t said[4] = {0};
        exchanged = turn;
        fill_all();
        said[0] = part();
        if (said[0] == ANY || said[0] == NO_ROOM)
            return;
        memcpy(said + 1, lent[IDENT].now, ID);
        if (turn && memcmp(said, kept, sizeof said))
            fail("a parting is another with the tips exchanged");
        memcpy(kept, said, sizeof said);
    }
}

static void print_partings(void)
{
    printf("where two series part, by result:");
    for (unsigned k = 0; k < 6; k++)
        printf(" %" PRIu32 ": %" PRIu64 "%s", parting_result[k], partings[k], k < 5 ? "," : "\n");
}
