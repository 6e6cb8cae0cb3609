/* A part of faults.c: the feed report over damaged files, other settings and memory that may be too short, for either reader, with a list or a file of the
 * call's lent once more as that of embargoed ids, also one that is ragged or oversize. numbers and seconds are lent for what it sets down. */

static uint64_t feedings[15];
static const uint32_t feeding_result[15] = {0, 1, 2, 3, 4, 5, 6, 7, 8, 9, 10, 11, 21, 22, NO_ROOM};
static unsigned embargoed; /* which input is lent as the list of embargoed ids */
static size_t embargoed_n;
static uint32_t outside;

#ifdef FAULTY
/* The library spoiled in one way, as in spoiled.h. */
static uint32_t spoiled_feeding(uint32_t result)
{
    if (fault == 60 && result >= 1 && result <= 8 && lent[PARENTS].bytes) /* a refusal before the walk alters a lent byte */
        lent[PARENTS].at[0] ^= 1;
    if (fault == 61 && result >= 9 && result <= 22) /* a number beside a refusal */
        ((uint64_t *)lent[NUMBERS].at)[3] = 1;
    if (fault == 62 && result == 0) /* more commits than places */
        ((uint64_t *)lent[NUMBERS].at)[3] += 1u << 30;
    if (fault == 63 && result == 9) /* a result that is none of this call's */
        return 100;
    if (fault == 64 && result == NO_ROOM) /* the number of short memory */
        return SHORT;
    if (fault == 65 && result == 3) /* a list that is not of whole ids is taken */
        return 0;
    return result;
}
#else
#define spoiled_feeding(result) (result)
#endif

static uint32_t call_feeding(void)
{
    const struct lent *b = lent;
    return spoiled_feeding(linenhatch_feed(
        width, input[STORE].at, input[STORE].n, input[GRAPH].at, input[GRAPH].n, input[TIPS].at, input[TIPS].n, input[HIDDEN].at, input[HIDDEN].n,
        input[EXCLUDED].at, input[EXCLUDED].n, settings.sorting, settings.limited, settings.cutoff, settings.first,
        input[embargoed].at, embargoed_n, outside, b[NAMES].at, b[NAMES].count, b[MARKS].at, b[MARKS].count, (uint32_t *)b[GENERATIONS].at, b[GENERATIONS].count,
        (int64_t *)b[TIMES].at, b[TIMES].count, (uint32_t *)b[LINE].at, b[LINE].count, b[PARENTS].at, b[PARENTS].count,
        (uint64_t *)b[NUMBERS].at, b[NUMBERS].count, (int64_t *)b[SECONDS].at, b[SECONDS].count));
}

static bool no_room_to_feed(void)
{
    return lent[NUMBERS].count < LINENHATCH_FEED_NUMBERS || lent[SECONDS].count < LINENHATCH_FEED_DIFFERENCES;
}

/* What is reported: no more commits than places and no greater sums than theirs, zeros beside a refusal. */
static void check_feeding_report(uint32_t result)
{
    const uint64_t *n = words(NUMBERS);
    check_same(NUMBERS, 8 * LINENHATCH_FEED_NUMBERS, "past the numbers of a feed report");
    check_same(SECONDS, 8 * LINENHATCH_FEED_DIFFERENCES, "past the difference of a feed report");
    if (result) {
        check_zeros(NUMBERS, 8 * LINENHATCH_FEED_NUMBERS, "in a feed report that is refused");
        check_zeros(SECONDS, 8 * LINENHATCH_FEED_DIFFERENCES, "in a feed report that is refused");
        return;
    }
    uint64_t commits = n[0] + n[1] + n[2] + n[3];
    if (commits > places_given || n[4] > 1000000000u * commits || n[5] > 1000000000u * commits)
        fail("a feed report of %" PRIu64 " commits for %zu places", commits, places_given);
}

static void check_feeding(uint32_t result)
{
    bool known = false;
    check_around();
    check_same(RECORD, 0, "by a feed report");
    check_same(IDENT, 0, "by a feed report");
    if (no_room_to_feed()) {
        if (result != NO_ROOM)
            fail("a feed report without room gives %" PRIu32, result);
        for (unsigned k = 0; k < LENT; k++)
            check_same(k, 0, "where there is no room");
        return;
    }
    for (unsigned k = 0; k < 14; k++)
        known |= result == feeding_result[k];
    if (!known)
        fail("a feed report gives %" PRIu32, result);
    if (embargoed_n % ID && result != 2 && result != 3)
        fail("a feed report with a ragged list of embargoed ids gives %" PRIu32, result);
    for (unsigned k = 0; k < MEMORY && result >= 1 && result <= 8; k++)
        check_same(k, 0, "by a feed report that is refused before the walk");
    check_feeding_report(result);
}

/* One call; its result, or ANY where it ended in a signal. */
static uint32_t feed_once(void)
{
    uint32_t result = ANY;
    call_number++;
    made++;
    lend_all();
    if (guarded(call_feeding, &result)) {
        check_feeding(result);
        for (unsigned k = 0; k < 15; k++)
            feedings[k] += result == feeding_result[k];
        if (looked_at())
            printf("feed report %u: %" PRIu32 ", places %zu\n", call_number, result, places_given);
    }
    take_back();
    return result;
}

/* The report twice, over memory filled anew: the same is said. */
static void fed(void)
{
    uint64_t kept[8] = {0};
    load_base();
    for (unsigned k = STORE; k <= GRAPH; k++)
        if (chance(40)) {
            damage_file(k);
            lend_work(k);
        }
    if (chance(50))
        odd_settings();
    referenced = false;
    if (!ask_places())
        return;
    embargoed = (unsigned)below(INPUTS);
    embargoed_n = chance(20) ? input[embargoed].n : input[embargoed].n / ID * ID;
    if (embargoed_n > MOST_LIST && chance(90))
        embargoed_n = MOST_LIST;
    outside = chance(50) ? 0 : chance(50) ? 1 : (uint32_t)draw();
    size_lent(places_given, chance(50) ? 0 : 40);
    if (chance(15))
        shorten(NAMES, MEMORY);
    if (chance(10))
        shorten(NUMBERS, LENT);
    for (unsigned turn = 0; turn < 2; turn++) {
        uint64_t said[8] = {0};
        fill_all();
        said[0] = feed_once();
        if (said[0] == ANY || said[0] == NO_ROOM)
            return;
        memcpy(said + 1, lent[NUMBERS].now, 8 * LINENHATCH_FEED_NUMBERS);
        memcpy(said + 7, lent[SECONDS].now, 8);
        if (turn && memcmp(said, kept, sizeof said))
            fail("a feed report is another in other memory");
        memcpy(kept, said, sizeof said);
    }
}

static void print_feedings(void)
{
    printf("feed reports, by result:");
    for (unsigned k = 0; k < 15; k++)
        printf(" %" PRIu32 ": %" PRIu64 "%s", feeding_result[k], feedings[k], k < 14 ? "," : "\n");
}
