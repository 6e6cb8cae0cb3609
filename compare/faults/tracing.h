/* A part of faults.c: tracing by turns over damaged stores, any lists of calibrations and moves, and memos of any length. The memo is lent in the
 * memory of names, the start among the tips, the calibrations among the hidden tips. */

static uint32_t trace_moves;
static uint64_t tracings[7];
static const uint32_t tracing_result[7] = {0, 2, 3, 4, 13, 25, NO_ROOM};

#ifdef FAULTY
/* The library spoiled in one way, as in spoiled.h. */
static uint32_t spoiled_tracing(uint32_t result)
{
    uint64_t *numbers = (uint64_t *)lent[NUMBERS].at;
    if (fault == 70 && (result == 25 || result == 4) && lent[NAMES].bytes) /* an early refusal alters the memo */
        lent[NAMES].at[0] ^= 1;
    if (fault == 71 && result == 13) /* an id beside a refusal */
        lent[IDENT].at[19] ^= 1;
    if (fault == 72 && result == 0 && numbers[0] < 2) /* a parent where none forces */
        numbers[1] = 1;
    if (fault == 73 && result == 13) /* a result that is none of this call's */
        return 1;
    if (fault == 74 && result == NO_ROOM) /* the number of short memory */
        return SHORT;
    if (fault == 75 && result == 0 && lent[NAMES].count < 26) /* another answer with a short memo */
        numbers[0] = (numbers[0] + 1) % 3;
    return result;
}
#else
#define spoiled_tracing(result) (result)
#endif

static uint32_t call_tracing(void)
{
    const struct lent *b = lent;
    return spoiled_tracing(linenhatch_trace(
        width, input[STORE].at, input[STORE].n, input[TIPS].at, input[TIPS].n, input[HIDDEN].at, input[HIDDEN].n, trace_moves,
        b[NAMES].at, b[NAMES].count, b[IDENT].at, b[IDENT].count, (uint64_t *)b[NUMBERS].at, b[NUMBERS].count));
}

static bool no_room_to_trace(void)
{
    return input[TIPS].n < ID || lent[IDENT].count < ID || lent[NUMBERS].count < LINENHATCH_TRACE_NUMBERS;
}

/* The answer: forced by a parent with its id and number, or zeros. */
static void check_tracing_answer(uint32_t result)
{
    const uint64_t *n = words(NUMBERS);
    check_same(NUMBERS, 8 * LINENHATCH_TRACE_NUMBERS, "past the numbers of a trace");
    check_same(IDENT, ID, "past the id of a trace");
    if (result)
        check_zeros(NUMBERS, 8 * LINENHATCH_TRACE_NUMBERS, "in a trace that is refused");
    if (result || n[0] != 2)
        check_zeros(IDENT, ID, "in a trace that no parent forces");
    if (n[0] > 2 || (n[0] < 2 && n[1]) || n[1] > 255)
        fail("a trace has the numbers %" PRIu64 " and %" PRIu64, n[0], n[1]);
}

static void check_tracing(uint32_t result)
{
    static const unsigned kept[] = {MARKS, GENERATIONS, TIMES, LINE, PARENTS, RECORD, SECONDS};
    bool known = false;
    check_around();
    for (unsigned k = 0; k < sizeof kept / sizeof *kept; k++)
        check_same(kept[k], 0, "by a trace");
    if (no_room_to_trace()) {
        if (result != NO_ROOM)
            fail("a trace without room gives %" PRIu32, result);
        for (unsigned k = 0; k < LENT; k++)
            check_same(k, 0, "where there is no room");
        return;
    }
    for (unsigned k = 0; k < 6; k++)
        known |= result == tracing_result[k];
    if (!known || (result == 25) != (trace_moves > 12))
        fail("a trace of %" PRIu32 " moves gives %" PRIu32, trace_moves, result);
    if (result && result != 13)
        check_same(NAMES, 0, "by a trace that is refused early");
    check_tracing_answer(result);
}

/* One call; its result, or ANY where it ended in a signal. */
static uint32_t trace_once(void)
{
    uint32_t result = ANY;
    call_number++;
    made++;
    lend_all();
    if (guarded(call_tracing, &result)) {
        check_tracing(result);
        for (unsigned k = 0; k < 7; k++)
            tracings[k] += result == tracing_result[k];
        if (looked_at())
            printf("trace %u: %" PRIu32 ", %" PRIu32 " moves, memo %zu\n", call_number, result, trace_moves, lent[NAMES].count);
    }
    take_back();
    return result;
}

/* The call with memos of several lengths, filled anew: the same is said. Without a memo few moves are asked for, since nothing is remembered then. */
static void traced(void)
{
    static const uint32_t moves[] = {0, 1, 2, 3, 4, 12, 13, UINT32_MAX};
    uint64_t kept[7] = {0};
    load_base();
    if (chance(50)) {
        damage_file(STORE);
        lend_work(STORE);
    }
    some_tip(TIPS);
    if (chance(60)) {
        other_list(HIDDEN, 1 + below(5));
        lend_work(HIDDEN);
    }
    referenced = false;
    trace_moves = moves[below(8)];
    size_lent(2 + input[STORE].n / ENTRY, 0);
    if (chance(10))
        shorten(IDENT, SECONDS);
    for (unsigned turn = 0; turn < 3; turn++) {
        uint64_t said[7] = {0};
        size_t whole = 26 * (2 + input[STORE].n / ENTRY);
        lent[NAMES].count = turn == 0 || trace_moves == 12 ? whole : turn == 1 ? below(whole + 1) : below(26);
        if (lent[NAMES].count > lent[NAMES].room)
            lent[NAMES].count = lent[NAMES].room;
        fill_all();
        said[0] = trace_once();
        if (said[0] == ANY || said[0] == NO_ROOM)
            return;
        memcpy(said + 1, lent[NUMBERS].now, 16);
        memcpy(said + 3, lent[IDENT].now, ID);
        if (turn && memcmp(said, kept, sizeof said))
            fail("a trace is another with another memo");
        memcpy(kept, said, sizeof said);
    }
}

static void print_tracings(void)
{
    printf("tracing by turns, by result:");
    for (unsigned k = 0; k < 7; k++)
        printf(" %" PRIu32 ": %" PRIu64 "%s", tracing_result[k], tracings[k], k < 6 ? "," : "\n");
}
