/* The library spoiled in one way (--fault N), to see that faults.c reports it. A part of faults.c, built with -DFAULTY. */

static unsigned fault;
static uint32_t call_open(void);

static bool short_of_room(void)
{
    return lent[RECORD].count < LINENHATCH_RECORD || lent[IDENT].count < ID || lent[NUMBERS].count < LINENHATCH_NUMBERS ||
           lent[SECONDS].count < LINENHATCH_SECONDS;
}

/* Faults of a tested opening. */
static uint32_t spoil_test(uint32_t result)
{
    bool reach = result >= LINENHATCH_UNREADABLE_REACH && result <= LINENHATCH_PAIR_NOT_FALLING;
    if (fault == 29 && reach) /* parents is used to work in */
        lent[PARENTS].at[0] ^= 1;
    if (fault == 30 && reach) { /* nothing is tested */
        tested = false;
        result = call_open();
        tested = true;
    }
    if (fault == 31 && result == LINENHATCH_TIP_NOT_FOUND && tested) /* a lost tip is taken for an unreadable reach */
        return LINENHATCH_UNREADABLE_REACH;
    return result;
}

static uint32_t spoiled_open(uint32_t result)
{
    uint64_t *record = (uint64_t *)lent[RECORD].at, *numbers = (uint64_t *)lent[NUMBERS].at;
    bool room = lent[RECORD].count >= LINENHATCH_RECORD && lent[NUMBERS].count >= 3;
    if (fault == 1 && result && lent[MARKS].bytes) /* a refused opening alters a lent byte */
        lent[MARKS].at[0] ^= 1;
    if (fault == 2 && result && room) /* a refused opening leaves the record open */
        record[0] = 1;
    if (fault == 3 && !room && lent[NUMBERS].count) /* without room something is altered */
        numbers[0]++;
    if (fault == 4 && result == SHORT) /* 7 is said before 1 */
        return 7;
    if (fault == 25 && result == NO_ROOM) /* the number of short memory, which would close the record */
        return SHORT;
    if (fault == 5) /* a byte before the tips is read */
        (void)((volatile uint8_t *)input[TIPS].at)[-1];
    return room ? spoil_test(result) : result;
}

/* Faults of memory. */
static void spoil_memory(uint32_t result)
{
    uint8_t *parents = lent[PARENTS].at;
    uint64_t *numbers = (uint64_t *)lent[NUMBERS].at;
    if (fault == 6) /* a byte past parents is written */
        parents[lent[PARENTS].bytes] ^= 1;
    if (fault == 7) /* a byte before names is written */
        lent[NAMES].at[-1] ^= 1;
    if (fault == 8) /* a byte past the graph is read */
        (void)((volatile uint8_t *)input[GRAPH].at)[input[GRAPH].n];
    if (fault == 9 && input[STORE].n) /* the store is written to */
        input[STORE].at[0] ^= 1;
    if (fault == 10 && result == CLOSED && lent[NAMES].bytes) /* 12 alters a byte of names */
        lent[NAMES].at[lent[NAMES].bytes - 1] ^= 1;
    if (fault == 11 && result == CLOSED) /* 12 alters the record */
        ((uint64_t *)lent[RECORD].at)[11]++;
    if (fault == 12 && result == 0 && numbers[LINENHATCH_PARENT_IDS] < 256) /* parents past the ids given */
        parents[ID * numbers[LINENHATCH_PARENT_IDS]] ^= 1;
    if (fault == 13 && lent[SECONDS].count > LINENHATCH_SECONDS) /* seconds past the zone */
        lent[SECONDS].at[8 * LINENHATCH_SECONDS] ^= 1;
}

/* Faults of the answer. */
static uint32_t spoil_answer(uint32_t result)
{
    uint64_t *numbers = (uint64_t *)lent[NUMBERS].at;
    if (fault == 14) /* a result that is none of a call's */
        return result == 9 ? 8 : result;
    if (fault == 15 && result == END)
        lent[IDENT].at[3] = 1;
    if (fault == 16 && result == CLOSED)
        numbers[2] = 1;
    if (fault == 17 && result == 10)
        lent[SECONDS].at[0] = 1;
    if (fault == 18 && result == 0)
        numbers[LINENHATCH_PARENT_IDS] = 257;
    if (fault == 19 && result == CLOSED) /* a closed record is at its end */
        return END;
    if (fault == 20 && result == 0 && lent[PARENTS].bytes) /* an answer that depends on what stood in parents, behind the ids of an answer */
        lent[IDENT].at[ID - 1] ^= lent[PARENTS].at[lent[PARENTS].bytes - 1];
    if (fault == 21 && result == 0) /* a count from nowhere */
        numbers[LINENHATCH_WAITING]++;
    if (fault == 26 && result == 0 && numbers[LINENHATCH_HAS_GENERATION]) /* a zone of a commit from the graph */
        numbers[LINENHATCH_HAS_ZONE] = 1;
    if (fault == 27 && result == 0 && numbers[LINENHATCH_HAS_ZONE]) /* hours of 15 */
        ((int64_t *)lent[SECONDS].at)[LINENHATCH_ZONE] = 900;
    if (fault == 28 && result == END) /* the zone of the commit before is left standing */
        ((int64_t *)lent[SECONDS].at)[LINENHATCH_ZONE] = 60;
    return result;
}

static uint32_t spoiled_next(uint32_t result)
{
    static uint64_t calls;
    if (short_of_room()) {
        if (fault == 22 && lent[NUMBERS].count) /* without room something is altered */
            lent[NUMBERS].at[0] ^= 1;
        return fault == 23 ? CLOSED : result;
    }
    if (fault == 24 && ++calls == 1000) /* a call that does not return */
        for (volatile bool on = true; on;)
            continue;
    spoil_memory(result);
    return spoil_answer(result);
}
