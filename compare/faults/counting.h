/* A part of faults.c: the report by terms over damaged files, other settings, any lists of months and memory that may be too short. The counts are lent in the
 * memory of the record, the months in that of the seconds, the number outside in numbers. */

#define MOST_MONTHS 64u

static uint32_t months[MOST_MONTHS];
static size_t months_n;
static uint64_t countings[14];
static const uint32_t counting_result[14] = {0, 1, 2, 3, 4, 5, 6, 7, 8, 9, 10, 11, 24, NO_ROOM};

#ifdef FAULTY
/* The library spoiled in one way, as in spoiled.h. */
static uint32_t spoiled_counting(uint32_t result)
{
    uint64_t *counts = (uint64_t *)lent[RECORD].at;
    if (fault == 80 && result == 24 && lent[LINE].bytes) /* a bad list alters a lent byte */
        lent[LINE].at[0] ^= 1;
    if (fault == 81 && result && result != NO_ROOM && lent[RECORD].count) /* a count beside a refusal */
        counts[lent[RECORD].count - 1] = 1;
    if (fault == 82 && result == 0) /* more commits than places */
        ((uint64_t *)lent[NUMBERS].at)[0] += 1u << 30;
    if (fault == 83 && result == 24) /* a bad list is taken for a good one */
        return 0;
    if (fault == 84 && result == NO_ROOM) /* the number of short memory */
        return SHORT;
    if (fault == 85 && result == 0 && lent[RECORD].count > months_n / 2) /* a count past the terms */
        counts[months_n / 2] = 1;
    return result;
}
#else
#define spoiled_counting(result) (result)
#endif

static uint32_t call_counting(void)
{
    const struct lent *b = lent;
    return spoiled_counting(linenhatch_terms(
        width, input[STORE].at, input[STORE].n, input[GRAPH].at, input[GRAPH].n, input[TIPS].at, input[TIPS].n, input[HIDDEN].at, input[HIDDEN].n,
        input[EXCLUDED].at, input[EXCLUDED].n, settings.sorting, settings.limited, settings.cutoff, settings.first,
        (const uint32_t *)b[SECONDS].at, months_n,
        b[NAMES].at, b[NAMES].count, b[MARKS].at, b[MARKS].count, (uint32_t *)b[GENERATIONS].at, b[GENERATIONS].count,
        (int64_t *)b[TIMES].at, b[TIMES].count, (uint32_t *)b[LINE].at, b[LINE].count, b[PARENTS].at, b[PARENTS].count,
        (uint64_t *)b[RECORD].at, b[RECORD].count, (uint64_t *)b[NUMBERS].at, b[NUMBERS].count));
}

static bool no_room_to_count(void)
{
    return lent[RECORD].count < months_n / 2 || lent[NUMBERS].count < LINENHATCH_TERMS_NUMBERS;
}

static bool good_list(void)
{
    uint64_t free = 0;
    bool good = months_n % 2 == 0 && months_n <= 2 * LINENHATCH_MAX_TERMS;
    for (size_t k = 0; good && k < months_n; k += 2) {
        good = months[k] >= free && months[k] <= months[k + 1] && months[k + 1] < LINENHATCH_MONTHS;
        free = months[k + 1] + (uint64_t)1;
    }
    return good;
}

/* What is reported: no more commits than places, zeros past the terms and beside a refusal. */
static void check_counting_report(uint32_t result)
{
    uint64_t commits = words(NUMBERS)[LINENHATCH_OUTSIDE];
    check_same(NUMBERS, 8 * LINENHATCH_TERMS_NUMBERS, "past the number of a report by terms");
    if (result) {
        check_zeros(NUMBERS, 8 * LINENHATCH_TERMS_NUMBERS, "in a report by terms that is refused");
        check_zeros(RECORD, lent[RECORD].bytes, "in a report by terms that is refused");
        return;
    }
    for (size_t k = 0; k < lent[RECORD].count; k++) {
        commits += words(RECORD)[k];
        if (k >= months_n / 2 && words(RECORD)[k])
            fail("a report by terms has a count past its terms");
    }
    if (commits > places_given)
        fail("a report by terms of %" PRIu64 " commits for %zu places", commits, places_given);
}

static void check_counting(uint32_t result)
{
    bool known = false;
    check_around();
    check_same(IDENT, 0, "by a report by terms");
    check_same(SECONDS, 0, "by a report by terms");
    if (no_room_to_count()) {
        if (result != NO_ROOM)
            fail("a report by terms without room gives %" PRIu32, result);
        for (unsigned k = 0; k < LENT; k++)
            check_same(k, 0, "where there is no room");
        return;
    }
    for (unsigned k = 0; k < 13; k++)
        known |= result == counting_result[k];
    if (!known || (result == 24) == good_list())
        fail("a report by terms with a %s list gives %" PRIu32, good_list() ? "good" : "bad", result);
    for (unsigned k = 0; k < MEMORY && ((result >= 1 && result <= 8) || result == 24); k++)
        check_same(k, 0, "by a report by terms that is refused before the walk");
    check_counting_report(result);
}

/* One call; its result, or ANY where it ended in a signal. */
static uint32_t count_once(void)
{
    uint32_t result = ANY;
    call_number++;
    made++;
    lend_all();
    if (guarded(call_counting, &result)) {
        check_counting(result);
        for (unsigned k = 0; k < 14; k++)
            countings[k] += result == counting_result[k];
        if (looked_at())
            printf("report by terms %u: %" PRIu32 ", %zu months, places %zu\n", call_number, result, months_n, places_given);
    }
    take_back();
    return result;
}

/* A list that rises; now and then a month of it is any number, or a month is left out. */
static void some_months(void)
{
    uint64_t free = chance(70) ? 0 : below(1500);
    months_n = 2 * below(chance(90) ? 6 : 27);
    for (size_t k = 0; k < months_n; k++) {
        uint64_t next = free + below(k % 2 ? 4 : 3);
        months[k] = (uint32_t)next;
        free = next + k % 2;
    }
    if (chance(20) && months_n)
        months[below(months_n)] = chance(50) ? (uint32_t)below(1600) : (uint32_t)draw();
    if (chance(10) && months_n)
        months_n--;
}

/* The report twice, over memory filled anew: the same is said. */
static void counted(void)
{
    uint64_t kept[MOST_MONTHS] = {0};
    load_base();
    for (unsigned k = STORE; k <= GRAPH; k++)
        if (chance(40)) {
            damage_file(k);
            lend_work(k);
        }
    if (chance(50))
        odd_settings();
    referenced = false;
    if (!ask_places())
        return;
    some_months();
    size_lent(places_given, chance(50) ? 0 : 40);
    lent[SECONDS].count = (months_n + 1) / 2;
    lent[RECORD].count = months_n / 2 + (chance(50) ? 0 : below(20));
    if (chance(15))
        shorten(NAMES, MEMORY);
    if (chance(5) && lent[RECORD].count)
        lent[RECORD].count = below(lent[RECORD].count);
    if (chance(5))
        lent[NUMBERS].count = 0;
    for (unsigned turn = 0; turn < 2; turn++) {
        uint64_t said[MOST_MONTHS] = {0};
        fill_all();
        memcpy(lent[SECONDS].now, months, 4 * months_n);
        said[0] = count_once();
        if (said[0] == ANY || said[0] == NO_ROOM)
            return;
        said[1] = *(const uint64_t *)lent[NUMBERS].now;
        memcpy(said + 2, lent[RECORD].now, 8 * (months_n / 2));
        if (turn && memcmp(said, kept, sizeof said))
            fail("a report by terms is another in other memory");
        memcpy(kept, said, sizeof said);
    }
}

static void print_countings(void)
{
    printf("reports by terms, by result:");
    for (unsigned k = 0; k < 14; k++)
        printf(" %" PRIu32 ": %" PRIu64 "%s", counting_result[k], countings[k], k < 13 ? "," : "\n");
}
