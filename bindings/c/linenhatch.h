/* linenhatch: a walk over git commits whose every answer is proved to be the right one.
 *
 * The functions of target/staticlib/liblinenhatch.a, which `tools/staticlib` proves and builds for x86-64 Linux.
 * What each promises is its contract in crates/linenhatch/src/lib.rt.
 *
 * Every lent buffer is a pointer and a number of elements (not of bytes). A pointer is never null, also where the number is 0, and is
 * aligned for its type; no two buffers of one call overlap, but for those that are const. Nothing is kept between calls but what stands
 * in the caller's own buffers, and nothing is allocated. Nothing is asked of the contents: every function is safe on any bytes.
 *
 * width, the first parameter of every function, is how many bytes an id has: 32 for SHA-256, any other number for SHA-1 with 20. Ids, lists,
 * the entries of the store, the rows of the graph file, the digests and the buffers follow it. A file of the other width is refused: a store
 * with 4, a graph file with 5.
 */
#ifndef LINENHATCH_H
#define LINENHATCH_H

#include <stddef.h>
#include <stdint.h>

#ifdef __cplusplus
extern "C" {
#endif

/* ---- settings, as numbers */

/* The width of ids. Any other number is SHA-1. */
#define LINENHATCH_SHA1 20u
#define LINENHATCH_SHA256 32u

/* The order of a walk. Any other number is breadth order. */
#define LINENHATCH_BREADTH 0u
#define LINENHATCH_NEWEST 1u
#define LINENHATCH_OLDEST 2u

/* Who a feed report is for. Any other number is an outside reader. */
#define LINENHATCH_READER_SHOP 0u
#define LINENHATCH_READER_OUTSIDE 1u

/* ---- sizes of the buffers, in elements; places is what linenhatch_places gives */

#define LINENHATCH_ID_BYTES(width) ((width) == LINENHATCH_SHA256 ? LINENHATCH_SHA256 : LINENHATCH_SHA1)
#define LINENHATCH_MAX_ID_BYTES 32u                                       /* of either width */
#define LINENHATCH_NAMES(width, places) (LINENHATCH_ID_BYTES(width) * (size_t)(places)) /* uint8_t */
#define LINENHATCH_MARKS(places) ((size_t)(places))                       /* uint8_t */
#define LINENHATCH_GENERATIONS(places) ((size_t)(places))                 /* uint32_t */
#define LINENHATCH_TIMES(places) ((size_t)(places))                       /* int64_t */
#define LINENHATCH_LINE(places) (5u * (size_t)(places))                   /* uint32_t */
#define LINENHATCH_PARENTS(width) (256u * LINENHATCH_ID_BYTES(width))      /* uint8_t: 256 ids */
#define LINENHATCH_RECORD 20u                                             /* uint64_t */
#define LINENHATCH_OPEN_NUMBERS 3u                                        /* uint64_t, of an opening */
#define LINENHATCH_NUMBERS 8u                                             /* uint64_t, of a call */
#define LINENHATCH_SECONDS 2u                                             /* int64_t */
#define LINENHATCH_CHECK_NUMBERS 1u                                       /* uint64_t, of a check of names */
#define LINENHATCH_BASE_NUMBERS 1u                                        /* uint64_t, of where two series part */
#define LINENHATCH_GRAPH_NUMBERS 1u                                       /* uint64_t, of writing a graph file */
#define LINENHATCH_FEED_NUMBERS 6u                                        /* uint64_t, of a feed report */
#define LINENHATCH_FEED_DIFFERENCES 1u                                    /* int64_t, of a feed report */
#define LINENHATCH_TRACE_NUMBERS 2u                                       /* uint64_t, of a trace */
#define LINENHATCH_TERMS_NUMBERS 1u                                       /* uint64_t, of a report by terms */
#define LINENHATCH_MONTHS 1560u                                           /* the months of the calendar: January 1970 to December 2099 */
#define LINENHATCH_MAX_TERMS 24u                                          /* the terms of a list */

/* ---- where a number stands in numbers */

#define LINENHATCH_ADMITTED 0 /* commits that ever waited */
#define LINENHATCH_STRUCK 1   /* of those, taken away by hiding */
#define LINENHATCH_WAITING 2  /* of those, not handed out yet */
/* of a call alone: */
#define LINENHATCH_PARENT_IDS 3     /* how many ids of parents stand at the start of parents */
#define LINENHATCH_HAS_GENERATION 4 /* 1 where the commit came from a graph file in which no generation is 0, else 0 */
#define LINENHATCH_GENERATION 5     /* its generation there, else 0 */
#define LINENHATCH_HAS_TIME 6       /* 1 where the walk goes by time, so that seconds holds the commit's time, else 0 */
#define LINENHATCH_HAS_ZONE 7       /* 1 where the commit came from the store and its committer line has a zone, else 0 */

/* ---- where a number stands in seconds */

#define LINENHATCH_TIME 0 /* the seconds that the commit was queued with, else 0 */
#define LINENHATCH_ZONE 1 /* the minutes by which the committer's clock is ahead of UTC, from -899 to 899, else 0 */

/* of a check of names alone: */
#define LINENHATCH_ENTRY 0 /* after 16 the number of the first entry at fault, counted from 0 in the order of ids, else 0 */

/* of where two series part alone: */
#define LINENHATCH_HAS_BASE 0 /* 1 where id holds a commit, else 0 */

/* of writing a graph file alone: */
#define LINENHATCH_FILE_BYTES 0 /* how many bytes the file has, 0 where there is none */

/* of a feed report alone; the first four add up to the commits handed out: */
#define LINENHATCH_FEED_BOTH 0    /* commits with both readings */
#define LINENHATCH_FEED_CONE 1    /* with a cone reading alone */
#define LINENHATCH_FEED_BED 2     /* with a bed reading alone */
#define LINENHATCH_FEED_NEITHER 3 /* with neither, also those that the graph file alone has */
#define LINENHATCH_CONE_SUM 4     /* the sum of all cone readings, in millimetres */
#define LINENHATCH_BED_SUM 5      /* the sum of all bed readings */

/* of a trace alone: */
#define LINENHATCH_FORCED 0        /* 0: not forced; 1: the start is on the list; 2: forced by a parent, which id holds */
#define LINENHATCH_PARENT_NUMBER 1 /* that parent's number in header order, counted from 0 */

/* of a report by terms alone: */
#define LINENHATCH_OUTSIDE 0 /* commits outside all terms */

/* ---- results: a commit or an opening that is accepted is 0, the end 100, no room 101, all others are refusals */

#define LINENHATCH_ACCEPTED 0u
#define LINENHATCH_COMMIT 0u
#define LINENHATCH_END 100u
#define LINENHATCH_NO_ROOM 101u /* record, numbers, id, seconds or a tip is too short: lend each the length above; nothing was done */

/* of an opening */
#define LINENHATCH_BUFFER_TOO_SMALL 1u /* a buffer of names to parents is below its size */
#define LINENHATCH_INPUT_TOO_LARGE 2u  /* store or graph over 16,777,216 bytes, or a list over 1,024 ids */
#define LINENHATCH_PARTIAL_ID 3u       /* a list is not of whole ids */
#define LINENHATCH_CORRUPT_STORE 4u    /* the layout of the commit store is broken */
#define LINENHATCH_UNKNOWN_GRAPH 5u    /* the first 8 bytes of the graph file are other ones, also those of the other width */
#define LINENHATCH_CORRUPT_GRAPH 6u    /* the rest of its layout is broken */
#define LINENHATCH_TIP_NOT_FOUND 7u    /* by time, a tip is not in the store */
#define LINENHATCH_TIP_UNREADABLE 8u   /* by time, a tip's header cannot be read through its committer line */

/* of a call */
#define LINENHATCH_COMMIT_NOT_FOUND 9u   /* in neither file */
#define LINENHATCH_COMMIT_UNREADABLE 10u /* a header line is bad */
#define LINENHATCH_TOO_MANY_PARENTS 11u  /* over 256 parents */
#define LINENHATCH_CLOSED 12u            /* the record is closed, or the memory was touched */

/* of a tested opening, and 13 of where two series part too */
#define LINENHATCH_UNREADABLE_REACH 13u /* a commit that a tip or hidden tip reaches is not in the store, or cannot be read there */
#define LINENHATCH_GRAPH_AT_ODDS 14u    /* the graph file lists one of them with other parents or another time, or its list is corrupt */
#define LINENHATCH_PAIR_NOT_FALLING 15u /* the pair of generation and time does not fall from one of them to a parent */

/* of a check of names */
#define LINENHATCH_FALSE_NAME 16u     /* a commit's id is not the digest of its body */
#define LINENHATCH_FALSE_CHECKSUM 17u /* the graph file does not end in the digest of the rest */

/* of writing a graph file */
#define LINENHATCH_UNFIT_STORE 18u   /* a commit cannot be read or has over 256 parents, a parent is not in the store, or parents run in a circle */
#define LINENHATCH_UNFIT_SECONDS 19u /* a commit's time is outside 0 to 17,179,869,183 */
#define LINENHATCH_SHORT_OUTPUT 20u  /* the output is shorter than the file */

/* of a feed report */
#define LINENHATCH_READING_TWICE 21u      /* two lines of a message start with the same reading */
#define LINENHATCH_READING_UNREADABLE 22u /* a line starts with a reading and goes on otherwise than with its number */

/* of where two series part */
#define LINENHATCH_TANGLED_REACH 23u /* commits are reachable from both tips and none is best: parents run in a circle */

/* of a report by terms */
#define LINENHATCH_BAD_TERMS 24u /* over 24 terms, out of order, overlapping, ending before it starts, or a month outside the calendar */

/* of a trace */
#define LINENHATCH_TOO_MANY_MOVES 25u /* over 12 moves */

/* How many places a walk over these files and lists needs. It depends on the width, on no other setting and on no excluded id, and is given for any bytes,
 * also for files that an opening would refuse. */
size_t linenhatch_places(
    uint32_t width,
    const uint8_t *store, size_t store_len,
    const uint8_t *graph, size_t graph_len,
    const uint8_t *tips, size_t tips_len,
    const uint8_t *hidden, size_t hidden_len);

/* Opens a walk: 0 where it is accepted, else the number of the first refusal in the order 2 to 6, 1, 7, 8.
 *
 * store: the commit store. graph: git's commit-graph file, of length 0 where there is none. tips, hidden, excluded: ids end to
 * end. sorting: see above. has_cutoff: 0 for no cutoff, any other number for one; breadth order has none. cutoff: the commits older than
 * these seconds are left out. first: 0 to follow all parents, any other number to follow first parents alone.
 *
 * names to parents are the walk's memory; of a refused opening not a byte there is altered. record and numbers are set down in every case:
 * after a refusal the record is the closed one (zeros), and the numbers are zeros. Where record or numbers is itself too short the result is
 * 101, before all other tests, and nothing at all is altered. */
uint32_t linenhatch_open(
    uint32_t width,
    const uint8_t *store, size_t store_len,
    const uint8_t *graph, size_t graph_len,
    const uint8_t *tips, size_t tips_len,
    const uint8_t *hidden, size_t hidden_len,
    const uint8_t *excluded, size_t excluded_len,
    uint32_t sorting, uint32_t has_cutoff, int64_t cutoff, uint32_t first,
    uint8_t *names, size_t names_len,
    uint8_t *marks, size_t marks_len,
    uint32_t *generations, size_t generations_len,
    int64_t *times, size_t times_len,
    uint32_t *line, size_t line_len,
    uint8_t *parents, size_t parents_len,
    uint64_t *record, size_t record_len,
    uint64_t *numbers, size_t numbers_len);

/* Opens a walk and tests what its promise supposes: 0 where it is accepted, else the number of the first refusal in the order 2 to 6, 1, 7,
 * 8, 13, 14, 15. What is lent is that of linenhatch_open.
 *
 * Tested are all commits that the tips and hidden tips reach, over all parents that the store has: also from tips that are excluded or that
 * the cutoff turns away, and with first too. 13: one of them is not in the store, or is not readable there (a header line is bad, or it has
 * over 256 parents). 14: the graph file lists one of them, and has other parents there, or in another order, or another time, or its parent
 * list is corrupt. 15: the pair of generation and time of one of them is not above that of a parent. The generation is that of the graph
 * file, and above all others where the file does not list the commit, where there is no file, or where a generation of the file is 0.
 *
 * Accepted, it leaves what linenhatch_open leaves, and more holds of the calls that follow, lent as linenhatch_next says: they hand out
 * exactly the commits to be listed, each once, then the end, and no call is refused. Of an opening refused with 1 to 8 not a byte of names
 * to parents is altered; with 13 to 15 parents is as it was, and what the others hold is not said. record, numbers and 101 are as of
 * linenhatch_open. It takes time in proportion to the links that are tested. */
uint32_t linenhatch_open_tested(
    uint32_t width,
    const uint8_t *store, size_t store_len,
    const uint8_t *graph, size_t graph_len,
    const uint8_t *tips, size_t tips_len,
    const uint8_t *hidden, size_t hidden_len,
    const uint8_t *excluded, size_t excluded_len,
    uint32_t sorting, uint32_t has_cutoff, int64_t cutoff, uint32_t first,
    uint8_t *names, size_t names_len,
    uint8_t *marks, size_t marks_len,
    uint32_t *generations, size_t generations_len,
    int64_t *times, size_t times_len,
    uint32_t *line, size_t line_len,
    uint8_t *parents, size_t parents_len,
    uint64_t *record, size_t record_len,
    uint64_t *numbers, size_t numbers_len);

/* One call of an opened walk: 0 where a commit is handed out, 100 at the end, else the number of a refusal.
 *
 * record: as the opening or the call before left it; the call sets down the one for the next call. width, and store to first, but for the tips: as
 * lent to the opening. names to line: as the opening or the call before left them, of the same lengths. generations and parents: of the same
 * lengths. Then the answers are those of the walk, one after another: no commit is handed out twice, call places + 2 at latest says end,
 * and after an end comes the end again. With anything else a call gives some result of these, and is safe.
 *
 * The answer: id holds the commit's id, numbers the numbers above, seconds the seconds that the commit was queued with and its zone, and the
 * start of parents its parents' ids, as many as numbers says; the rest of parents is as it was. A refusal or the end has zeros for id,
 * generation, seconds and zone; 12 has zeros for all. After 9 to 11 the commit is used up and the next call goes on.
 *
 * The zone is that of the committer line, behind all parent lines, with first too: a space, a sign, four digits with minutes below 60 and
 * hours at most 14, and the line's end. Anything else is no zone, and so is a line up to the committer's that cannot be read. A graph file
 * holds no zone. -0000 is a zone, of 0 minutes.
 *
 * 12 alters neither the record nor the memory. Where record, id, numbers or seconds is itself too short the result is 101, no call is
 * made and nothing at all is altered. */
uint32_t linenhatch_next(
    uint32_t width,
    uint64_t *record, size_t record_len,
    const uint8_t *store, size_t store_len,
    const uint8_t *graph, size_t graph_len,
    const uint8_t *hidden, size_t hidden_len,
    const uint8_t *excluded, size_t excluded_len,
    uint32_t sorting, uint32_t has_cutoff, int64_t cutoff, uint32_t first,
    uint8_t *names, size_t names_len,
    uint8_t *marks, size_t marks_len,
    uint32_t *generations, size_t generations_len,
    int64_t *times, size_t times_len,
    uint32_t *line, size_t line_len,
    uint8_t *parents, size_t parents_len,
    uint8_t *id, size_t id_len,
    uint64_t *numbers, size_t numbers_len,
    int64_t *seconds, size_t seconds_len);

/* Checks names: 0 where each commit of the store is under the id that git makes of its body (the digest of `commit `, the body's length in
 * decimal, a zero byte and the body), and the graph file, if one is lent, ends in the digest of the rest; else the number of the first refusal
 * in the order 2, 4, 5, 6, 16, 17. A body need not be readable as a commit.
 *
 * numbers: after 16 the number of the first entry at fault, else 0. Where it has no room for that the result is 101, before all other tests,
 * and nothing is altered. */
uint32_t linenhatch_check_names(
    uint32_t width,
    const uint8_t *store, size_t store_len,
    const uint8_t *graph, size_t graph_len,
    uint64_t *numbers, size_t numbers_len);

/* Where two series part (git's merge-base): 0 where it is said, else the number of the first refusal in the order 2, 4, 1, 13, 23.
 *
 * one, other: a tip each, of which the first bytes count, as many as an id has. A commit is common where it is reachable from both over the store's parents; a
 * tip is reachable from itself. A common commit is best where it is not reachable from another. Of the best ones the first is given: that with
 * the greatest committer seconds in the store, among equals that with the smallest id. So it is the same with the tips exchanged, and clocks
 * decide nothing else. numbers says 1 and id holds the commit; or 0 and zeros, exactly where no commit is common.
 *
 * 13: a commit that a tip reaches, the tip too, is not in the store, or is not readable there (a header line is bad, or it has over 256
 * parents). 23: commits are common and none is best, which needs parents that run in a circle. After a refusal numbers says 0 and id zeros.
 *
 * names to parents are memory of the lengths above, with places = linenhatch_places of the store, no graph, the two tips end to end and nothing
 * hidden: 2 and a 48th of the store's length, a 72nd with SHA-256, rounded down. times and parents are not read or written: their lengths are tested. After
 * 2, 4 and 1 not a byte of it is altered; after all else what it holds is not said. Where one or other is shorter than an id, or id or numbers is
 * itself too short, the result is 101, before all other tests, and nothing at all is altered. It takes time in proportion to the links. */
uint32_t linenhatch_merge_base(
    uint32_t width,
    const uint8_t *store, size_t store_len,
    const uint8_t *one, size_t one_len,
    const uint8_t *other, size_t other_len,
    uint8_t *names, size_t names_len,
    uint8_t *marks, size_t marks_len,
    uint32_t *generations, size_t generations_len,
    const int64_t *times, size_t times_len,
    uint32_t *line, size_t line_len,
    const uint8_t *parents, size_t parents_len,
    uint8_t *id, size_t id_len,
    uint64_t *numbers, size_t numbers_len);

/* How long the commit-graph file of a store is: 0 where it is said, else the number of the first refusal in the order 2, 4, 1, 18, 19.
 *
 * numbers: the file's bytes, 0 after a refusal.
 * generations: one for each entry of the store, as many as its last four bytes say; 1: they are fewer. After 2, 4 and 1 they are as they were,
 * after all else what they hold is not said. 18: an entry of the store is not readable (a header line is bad, or it has over 256 parents), a
 * parent is not in the store, or parents run in a circle (a commit that is its own parent too). 19: the seconds of an entry are outside 0 to
 * 17,179,869,183. Where numbers has no room the result is 101, before all other tests, and nothing is altered. */
uint32_t linenhatch_graph_length(
    uint32_t width,
    const uint8_t *store, size_t store_len,
    uint32_t *generations, size_t generations_len,
    uint64_t *numbers, size_t numbers_len);

/* Writes the commit-graph file of a store, git's version 1 (hash version 2 with SHA-256) with the chunks OIDF, OIDL, CDAT and, where a commit has over two parents, EDGE: 0 where it
 * stands at the start of output, else the number of the first refusal in the order 2, 4, 1, 18, 19, 20.
 *
 * What is lent is that of linenhatch_graph_length, and output: of at least the length that it gives. 20: it is shorter. No byte of output past the
 * file's is altered, and after a refusal none at all. The generation of a commit without parents is 1, of any other one more than the greatest of its
 * parents'. It takes time in proportion to the store and its links. */
uint32_t linenhatch_write_graph(
    uint32_t width,
    const uint8_t *store, size_t store_len,
    uint32_t *generations, size_t generations_len,
    uint8_t *output, size_t output_len,
    uint64_t *numbers, size_t numbers_len);

/* The feed report of a whole walk, opened as linenhatch_open opens one and called to its end: 0, or the number of the refusal: that of the opening, the
 * walk's own first one (9 to 11), or 21 or 22 of a commit's message, whichever comes first in the walk; of 21 and 22 in one message 21.
 *
 * A message is what follows a commit's first empty line. A line of it that starts with "Cone-feed: " or "Bed-feed: " gives a reading in millimetres, 1 to 10
 * digits up to the line's end, at most 1,000,000,000.
 *
 * embargoed: a list of ids as the others, and tested as they are for 2 and 3, whoever the report is for; it asks for no places. outside: 0 for the shop's
 * reader, who sees all; with any other number the report is for an outside reader: a commit on the list counts as one with neither reading, and its
 * message causes no 21 or 22. So where two stores differ only in the digits of readings of commits on the list, by as many, both reports for an outside
 * reader are the same, and so are all lists; not so the check of names, which depends on every byte, and nothing is said of the time a call takes or of
 * what it leaves in its memory.
 *
 * numbers: see above. difference: one number, the sum of cone less bed over the commits with both readings. Both are set down in every case, zeros
 * after a refusal; where one of them is too short the result is 101, before all other tests, and nothing is altered. names to parents are working memory, of the
 * sizes that an opening asks for: after 1 to 8 not a byte there is altered, else what they hold is free. */
uint32_t linenhatch_feed(
    uint32_t width,
    const uint8_t *store, size_t store_len,
    const uint8_t *graph, size_t graph_len,
    const uint8_t *tips, size_t tips_len,
    const uint8_t *hidden, size_t hidden_len,
    const uint8_t *excluded, size_t excluded_len,
    uint32_t sorting, uint32_t has_cutoff, int64_t cutoff, uint32_t first,
    const uint8_t *embargoed, size_t embargoed_len,
    uint32_t outside,
    uint8_t *names, size_t names_len,
    uint8_t *marks, size_t marks_len,
    uint32_t *generations, size_t generations_len,
    int64_t *times, size_t times_len,
    uint32_t *line, size_t line_len,
    uint8_t *parents, size_t parents_len,
    uint64_t *numbers, size_t numbers_len,
    int64_t *difference, size_t difference_len);

/* Tracing by turns: 0 where it is said, else the number of the first refusal in the order 25, 2, 3, 4, 13.
 *
 * Two benches trace back from a commit by turns, each choosing a parent, the cone bench first, moves times at most. The cone gets its way if the trace
 * reaches a commit of the list; a commit without parents off the list is none. start: of which the first bytes count, as many as an id has. list: the calibrations, as
 * the lists of an opening. numbers says 1 where the start is on the list; 2 where the cone can force it however the bed chooses, and then
 * the number of the first parent by which it does, whose id stands in id; else 0. id is zeros but after 2.
 *
 * 25: moves is over 12. 13: a commit within moves parent steps of the start, the start too and past commits of the list, is not in the store or not readable
 * there. After a refusal numbers and id are zeros.
 *
 * memo: memory of any length, also 0, in which what was found is remembered. The answer is the same whatever its length; with 26 bytes for each entry of the
 * store it takes time in proportion to the links, with none it may take 256 to the power of moves. After 25 and 2 to 4 it is as it was, after all else
 * what it holds is not said. Where start is shorter than an id, or id or numbers is too short, the result is 101, before all other tests, and nothing at all is
 * altered. */
uint32_t linenhatch_trace(
    uint32_t width,
    const uint8_t *store, size_t store_len,
    const uint8_t *start, size_t start_len,
    const uint8_t *list, size_t list_len,
    uint32_t moves,
    uint8_t *memo, size_t memo_len,
    uint8_t *id, size_t id_len,
    uint64_t *numbers, size_t numbers_len);

/* How many commits of a whole walk lie in each term, by their committer time in the store: 0, or the number of the refusal: 24, before all else; that of
 * the opening; or the walk's own first one (9 to 11).
 *
 * terms: two months a term, its first and its last, each counted from January 1970 (2024-09 is 656). A term runs from the first second of the one to the last
 * second of the other, in UTC. Good lists have at most 24 terms, rising and without overlap; two may touch, and there may be none. A list is refused
 * with 24 where it is not so, where a month stands alone or is 1560 or more, or where a term ends before it starts. counts: a number for each term, and 0 in
 * every place past them. numbers: see above; commits before 1970 or after 2099, and those whose time cannot be read in the store, are outside. Both are set
 * down in every case, zeros after a refusal; the counts and the commits outside add up to the commits of the walk. Where counts has less than one for
 * each two months, or numbers is too short, the result is 101, before all other tests, and nothing is altered. names to parents are working memory: after 24
 * and 1 to 8 not a byte there is altered, else what they hold is free. */
uint32_t linenhatch_terms(
    uint32_t width,
    const uint8_t *store, size_t store_len,
    const uint8_t *graph, size_t graph_len,
    const uint8_t *tips, size_t tips_len,
    const uint8_t *hidden, size_t hidden_len,
    const uint8_t *excluded, size_t excluded_len,
    uint32_t sorting, uint32_t has_cutoff, int64_t cutoff, uint32_t first,
    const uint32_t *terms, size_t terms_len,
    uint8_t *names, size_t names_len,
    uint8_t *marks, size_t marks_len,
    uint32_t *generations, size_t generations_len,
    int64_t *times, size_t times_len,
    uint32_t *line, size_t line_len,
    uint8_t *parents, size_t parents_len,
    uint64_t *counts, size_t counts_len,
    uint64_t *numbers, size_t numbers_len);

#ifdef __cplusplus
}
#endif

#endif
