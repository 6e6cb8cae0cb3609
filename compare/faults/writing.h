/* A part of faults.c: writing graph files, over damaged stores, ids of either width, outputs and generations that may be too short. The output is lent in the
 * memory of names. */

static bool measured; /* only the length is asked for */
static uint32_t id_width;
static uint64_t writings[8];
static const uint32_t writing_result[8] = {0, 1, 2, 4, 18, 19, 20, NO_ROOM};

#ifdef FAULTY
/* The library spoiled in one way, as in spoiled.h. */
static uint32_t spoiled_writing(uint32_t result)
{
    uint64_t *numbers = (uint64_t *)lent[NUMBERS].at;
    if (fault == 50 && (result == 18 || result == 20) && !measured && lent[NAMES].bytes) /* a refusal alters the output */
        lent[NAMES].at[lent[NAMES].bytes - 1] ^= 1;
    if (fault == 51 && (result == 1 || result == 4) && lent[GENERATIONS].bytes) /* an early refusal alters the generations */
        lent[GENERATIONS].at[0] ^= 1;
    if (fault == 52 && result == 0 && !measured && lent[NAMES].bytes > numbers[0]) /* a byte past the file */
        lent[NAMES].at[numbers[0]] ^= 1;
    if (fault == 53 && result == 18) /* a length beside a refusal */
        numbers[0] = 1100;
    if (fault == 54 && result == 19) /* a result that is none of this call's */
        return 9;
    if (fault == 55 && result == NO_ROOM) /* the number of short memory */
        return 1;
    if (fault == 56 && result == 0 && !measured) /* a checksum that is false */
        lent[NAMES].at[numbers[0] - 1] ^= 1;
    if (fault == 57 && result == 0 && measured) /* another length than that of the file */
        numbers[0]++;
    return result;
}
#else
#define spoiled_writing(result) (result)
#endif

static uint32_t call_writing(void)
{
    const struct lent *b = lent;
    if (measured)
        return spoiled_writing(linenhatch_graph_length(
            id_width, input[STORE].at, input[STORE].n, (uint32_t *)b[GENERATIONS].at, b[GENERATIONS].count, (uint64_t *)b[NUMBERS].at, b[NUMBERS].count));
    return spoiled_writing(linenhatch_write_graph(
        id_width, input[STORE].at, input[STORE].n, (uint32_t *)b[GENERATIONS].at, b[GENERATIONS].count, b[NAMES].at, b[NAMES].count,
        (uint64_t *)b[NUMBERS].at, b[NUMBERS].count));
}

/* A file that was written is one that an opening of its width takes, with a true checksum. */
static void check_file(size_t n)
{
    static const uint8_t no_commits[8];
    uint64_t entry;
    uint32_t result = linenhatch_check_names(id_width, no_commits, 8, lent[NAMES].at, n, &entry, 1);
    if (result)
        fail("a file that was written is refused with %" PRIu32, result);
}

static void check_writing_answer(uint32_t result)
{
    uint64_t n = words(NUMBERS)[LINENHATCH_FILE_BYTES];
    check_same(NUMBERS, 8 * LINENHATCH_GRAPH_NUMBERS, "past the number of a writing");
    if ((result == 0) != (n != 0))
        fail("a writing has the number %" PRIu64 " beside %" PRIu32, n, result);
    if (result || measured)
        check_same(NAMES, 0, "by a writing that is refused");
    else if (n > lent[NAMES].bytes)
        fail("a file of %" PRIu64 " bytes in an output of %zu", n, lent[NAMES].bytes);
    else {
        check_same(NAMES, n, "past the file");
        check_file(n);
    }
}

static void check_writing(uint32_t result)
{
    static const unsigned kept[] = {MARKS, TIMES, LINE, PARENTS, RECORD, IDENT, SECONDS};
    size_t n = input[STORE].n;
    bool known = false, early = result == SHORT || result == LINENHATCH_INPUT_TOO_LARGE || result == LINENHATCH_CORRUPT_STORE;
    check_around();
    for (unsigned k = 0; k < sizeof kept / sizeof *kept; k++)
        check_same(kept[k], 0, "by a writing");
    if (lent[NUMBERS].count < LINENHATCH_GRAPH_NUMBERS) {
        if (result != NO_ROOM)
            fail("a writing without room gives %" PRIu32, result);
        for (unsigned k = 0; k < LENT; k++)
            check_same(k, 0, "where there is no room");
        return;
    }
    for (unsigned k = 0; k < 7; k++)
        known |= result == writing_result[k];
    if (!known || (result == 20 && measured))
        fail("a writing gives %" PRIu32, result);
    if (result != LINENHATCH_CORRUPT_STORE && result != LINENHATCH_INPUT_TOO_LARGE && (result == SHORT) != (lent[GENERATIONS].count < be32(input[STORE].at + n - 4)))
        fail("a writing gives %" PRIu32 " with %zu generations", result, lent[GENERATIONS].count);
    if (early)
        check_same(GENERATIONS, 0, "by a writing that is refused early");
    check_writing_answer(result);
}

/* One call; its result, or ANY where it ended in a signal. */
static uint32_t write_once(void)
{
    uint32_t result = ANY;
    call_number++;
    made++;
    lend_all();
    if (guarded(call_writing, &result)) {
        check_writing(result);
        for (unsigned k = 0; k < 8; k++)
            writings[k] += result == writing_result[k];
        if (looked_at())
            printf("writing %u: %" PRIu32 ", %zu generations, output %zu\n", call_number, result, lent[GENERATIONS].count, lent[NAMES].count);
    }
    take_back();
    return result;
}

/* The length, then the file: the same refusal, or 20; the same length. */
static void written(void)
{
    const uint32_t widths[] = {width, width, width, width, 20, 32, 0, UINT32_MAX};
    uint64_t length = 0;
    uint32_t said = ANY;
    load_base();
    if (chance(60)) {
        damage_file(STORE);
        lend_work(STORE);
    }
    referenced = false;
    id_width = widths[below(8)];
    size_lent(2 + input[STORE].n / ENTRY, chance(50) ? 0 : 40);
    if (chance(25))
        shorten(GENERATIONS, GENERATIONS + 1);
    if (chance(10))
        shorten(NUMBERS, NUMBERS + 1);
    for (unsigned turn = 0; turn < 2; turn++) {
        measured = turn == 0;
        lent[NAMES].count = measured ? 0 : chance(25) ? below(length + 1) : length + (chance(50) ? 0 : below(99));
        if (lent[NAMES].count > lent[NAMES].room)
            lent[NAMES].count = lent[NAMES].room;
        fill_all();
        uint32_t result = write_once();
        if (result == ANY || result == NO_ROOM)
            return;
        if (measured)
            length = *(uint64_t *)lent[NUMBERS].now;
        else if (said == 0 && lent[NAMES].count < length ? result != 20 : result != said)
            fail("a writing gives %" PRIu32 " where the length gave %" PRIu32, result, said);
        else if (result == 0 && *(uint64_t *)lent[NUMBERS].now != length)
            fail("a file of another length than was said");
        said = result;
    }
}

static void print_writings(void)
{
    printf("writing graph files, by result:");
    for (unsigned k = 0; k < 8; k++)
        printf(" %" PRIu32 ": %" PRIu64 "%s", writing_result[k], writings[k], k < 7 ? "," : "\n");
}
