/* H1 of document 01, every refusal, how many hold, where the title ends, which frames clash, locks read and written, nodes reserved before
 * a seat enters, and the edges of what may be lent, through include/soodhiqune.h and the archive: that the header says how each call is
 * made, and that its names and sizes are those of the library. What a writers' sheet has in common with the ordinary tables is tried on
 * both, and then what it has alone. It is C99 and C++. Prints what differs, and a closing line 'N passed, M failed'. */
#include "../include/soodhiqune.h"

#include "calls.h"

#include <stdio.h>
#include <string.h>

enum { NODES = 4, SEATS = 3, FRAMES = 25, UNTOUCHED = 9, LENT_WORDS = SOODHIQUNE_SHARED_WORDS + 2 };

#define NODE_TABLE nodes, on->node_words(NODES)
#define SEAT_TABLE seats, on->seat_words(SEATS)
#define TABLES NODE_TABLE, SEAT_TABLE
#define ENTRIES(schedule) schedule, sizeof schedule / sizeof schedule[0]
#define TEXT(script) (const uint8_t *)script, strlen(script)

static int passed, failed;
/* a sheet's tables are no longer than these */
static uint32_t nodes[SOODHIQUNE_NODE_WORDS(SOODHIQUNE_MOST_NODES + 1)], seats[SOODHIQUNE_SEAT_WORDS(SOODHIQUNE_MOST_SEATS + 1)];

static void check(const char *what, int holds)
{
    if (holds) {
        passed++;
    } else {
        failed++;
        printf("differs: %s%s\n", on->whose, what);
    }
}

static int answers(uint64_t given, enum soodhiqune_answer answer, uint32_t node)
{
    return soodhiqune_refusal_of(given) == SOODHIQUNE_ACCEPTED && soodhiqune_answer_of(given) == answer &&
           soodhiqune_node_of(given) == node;
}

static int refuses(uint64_t given, enum soodhiqune_refusal refusal)
{
    return soodhiqune_answer_of(given) == SOODHIQUNE_REFUSED && soodhiqune_refusal_of(given) == refusal;
}

static int counts(uint64_t given, uint32_t count)
{
    return soodhiqune_refusal_of(given) == SOODHIQUNE_ACCEPTED && soodhiqune_upper(given) == 1 && soodhiqune_count_of(given) == count;
}

static int ran(uint64_t given, uint32_t steps, enum soodhiqune_refusal refusal)
{
    return soodhiqune_run_steps(given) == steps && soodhiqune_run_refusal(given) == refusal;
}

/* a step is lent the words behind the first of these and before the last */
static uint32_t lent[LENT_WORDS];

static int tells(uint32_t first, uint32_t end)
{
    const uint32_t *shared = lent + 1;
    return lent[0] == UNTOUCHED && lent[LENT_WORDS - 1] == UNTOUCHED && shared[SOODHIQUNE_SHARED_FIRST] == first &&
           shared[SOODHIQUNE_SHARED_END] == end;
}

/* a step; unless it answers wait, what it was lent to tell the shared frames stays */
static uint64_t stepped(uint32_t *table, size_t node_words, uint32_t *seat_table, size_t seat_words, uint32_t seat)
{
    uint64_t given;
    size_t word;
    for (word = 0; word < LENT_WORDS; word++) {
        lent[word] = UNTOUCHED;
    }
    given = on->step(table, node_words, seat_table, seat_words, seat, lent + 1);
    if (soodhiqune_answer_of(given) != SOODHIQUNE_WAIT) {
        check("shared words as found", tells(UNTOUCHED, UNTOUCHED));
    }
    return given;
}

static int waits(uint64_t given, uint32_t node, uint32_t first, uint32_t end)
{
    return answers(given, SOODHIQUNE_WAIT, node) && tells(first, end);
}

/* a seat reserves and enters */
static void enters(uint32_t *table, size_t node_words, uint32_t *seat_table, size_t seat_words, uint32_t seat, uint32_t start, uint32_t end,
                   uint32_t kind)
{
    const uint64_t given = on->reserve(table, node_words, seat_table, seat_words, seat, start, end, kind);
    check("reserved", soodhiqune_answer_of(given) == SOODHIQUNE_NODE);
    check("entered", answers(on->enter(table, node_words, seat_table, seat_words, seat), SOODHIQUNE_ON, 0));
}

static void check_numbers(void)
{
    check("the numbers that documents 01 and 02 say", SOODHIQUNE_NODE_WORDS(4) == 24 && SOODHIQUNE_SEAT_WORDS(3) == 12 &&
          SOODHIQUNE_SHEET_NODE_WORDS(4) == 24 && SOODHIQUNE_SHEET_SEAT_WORDS(3) == 12 && SOODHIQUNE_ROW_WORDS(2) == 8 &&
          SOODHIQUNE_SHARED_WORDS == 2 && SOODHIQUNE_SCRIPT_NUMBERS == 5004 && SOODHIQUNE_EMPTY_CLAIM == 3 && SOODHIQUNE_EMPTY_TITLE == 3 &&
          SOODHIQUNE_NO_SUCH_KIND == 4 && SOODHIQUNE_BAD_SCRIPT == 10 && SOODHIQUNE_BEYOND_TITLE == 11 && SOODHIQUNE_BOARD_TOO_SHORT == 9 &&
          SOODHIQUNE_LIST_TOO_SHORT == 9 && SOODHIQUNE_NO_RUN == 12 && SOODHIQUNE_NO_SUCH_TYPE == 13 && SOODHIQUNE_NOT_RESERVED == 14 &&
          SOODHIQUNE_LOCK_WORDS(2) == 6 && SOODHIQUNE_CLAIM_WORDS(2) == 6 && SOODHIQUNE_RESERVE == 1 && SOODHIQUNE_STEP == 2 &&
          SOODHIQUNE_RELEASE == 3 && SOODHIQUNE_ENTER == 4);
}

static int accepts_lengths(size_t node_words, size_t seat_words)
{
    return on->clear(nodes, node_words, seats, seat_words, 1) == SOODHIQUNE_ACCEPTED;
}

static void check_lengths(void)
{
    const size_t node_words = on->node_words(1), seat_words = on->seat_words(1);
    check("the fewest", accepts_lengths(node_words, seat_words));
    check("the most", accepts_lengths(on->node_words(SOODHIQUNE_MOST_NODES), on->seat_words(SOODHIQUNE_MOST_SEATS)));
    check("a node too many", !accepts_lengths(on->node_words(SOODHIQUNE_MOST_NODES + 1), seat_words));
    check("a seat too many", !accepts_lengths(node_words, on->seat_words(SOODHIQUNE_MOST_SEATS + 1)));
    check("no node", !accepts_lengths(on->node_words(0), seat_words));
    check("a word too few before the nodes", !accepts_lengths(on->node_words(0) - 1, seat_words));
    check("a word too few for the node", !accepts_lengths(node_words - 1, seat_words));
    check("a word too many for the node", !accepts_lengths(node_words + 1, seat_words));
    check("a word too few for the seat", !accepts_lengths(node_words, seat_words - 1));
    check("a word too many for the seat", !accepts_lengths(node_words, seat_words + 1));
    check("a table that is too short", refuses(stepped(nodes, node_words - 1, seats, seat_words, 0), SOODHIQUNE_DAMAGED));
}

static void check_claims(void)
{
    const uint32_t holds[] = {1, 1, 1, 1, 0};
    memset(nodes, 7, sizeof nodes);
    memset(seats, 7, sizeof seats);
    check("a table of sevens is damaged", refuses(stepped(TABLES, 0), SOODHIQUNE_DAMAGED));
    check("clear", on->clear(TABLES, FRAMES) == SOODHIQUNE_ACCEPTED);
    check("seat 0 reserves", answers(on->reserve(TABLES, 0, 10, 20, SOODHIQUNE_WRITES), SOODHIQUNE_NODE, 1));
    check("seat 0 enters", answers(on->enter(TABLES, 0), SOODHIQUNE_ON, 0));
    check("seat 0 is linked", answers(stepped(TABLES, 0), on->links, 0));
    check("seat 0 holds", answers(stepped(TABLES, 0), SOODHIQUNE_HELD, 0));
    check("seat 1 reserves", answers(on->reserve(TABLES, 1, 15, 25, SOODHIQUNE_WRITES), SOODHIQUNE_NODE, 2));
    check("seat 1 enters", answers(on->enter(TABLES, 1), SOODHIQUNE_ON, 0));
    check("seat 1 waits at node 1, which shares frames 15 up to 20", waits(stepped(TABLES, 1), 1, 15, 20));
    check("seat 1 waits on, and is told so again", waits(stepped(TABLES, 1), 1, 15, 20));
    check("nodes 3 and 4 are free", counts(on->free_count(TABLES), 2));
    check("seat 1 does not hold", refuses(on->release(TABLES, 1), SOODHIQUNE_NOT_HOLDING));
    check("seat 0 releases", answers(on->release(TABLES, 0), SOODHIQUNE_OUT, 0));
    check("an empty schedule", ran(on->run(TABLES, holds, 0, 9), 0, SOODHIQUNE_ACCEPTED));
    check("a budget of 1", ran(on->run(TABLES, ENTRIES(holds), 1), 1, SOODHIQUNE_ACCEPTED));
    check("seat 1 comes to hold, and steps on; seat 0 is idle", ran(on->run(TABLES, ENTRIES(holds), 9), 4, SOODHIQUNE_SEAT_IDLE));
}

static void check_refusals(void)
{
    check("no such seat", refuses(on->reserve(TABLES, SEATS, 26, 26, 9), SOODHIQUNE_NO_SUCH_SEAT));
    check("an empty claim", refuses(on->reserve(TABLES, 1, 26, 26, 9), SOODHIQUNE_EMPTY_CLAIM));
    check("beyond the title", refuses(on->reserve(TABLES, 1, 7, 26, 9), SOODHIQUNE_BEYOND_TITLE));
    check("no such kind", refuses(on->reserve(TABLES, 1, 7, 25, 9), SOODHIQUNE_NO_SUCH_KIND));
    check("the seat has a claim", refuses(on->reserve(TABLES, 1, 7, 25, SOODHIQUNE_WRITES), SOODHIQUNE_SEAT_HAS_CLAIM));
    check("the seat is idle", refuses(stepped(TABLES, 0), SOODHIQUNE_SEAT_IDLE));
    check("no such seat to enter", refuses(on->enter(TABLES, SEATS), SOODHIQUNE_NO_SUCH_SEAT));
    check("an idle seat has not reserved", refuses(on->enter(TABLES, 0), SOODHIQUNE_NOT_RESERVED));
    check("nor has one that holds", refuses(on->enter(TABLES, 1), SOODHIQUNE_NOT_RESERVED));
}

/* H7 */
static void check_no_node(void)
{
    uint32_t node[SOODHIQUNE_NODE_WORDS(1)], both[SOODHIQUNE_SEAT_WORDS(2)];
    const size_t node_words = on->node_words(1), both_words = on->seat_words(2);
    on->clear(node, node_words, both, both_words, 10);
    on->reserve(node, node_words, both, both_words, 0, 0, 10, SOODHIQUNE_WRITES);
    check("no node is free",
          refuses(on->reserve(node, node_words, both, both_words, 1, 0, 10, SOODHIQUNE_WRITES), SOODHIQUNE_NO_NODE_FREE));
    check("beyond the title, and no node is free",
          refuses(on->reserve(node, node_words, both, both_words, 1, 0, 11, SOODHIQUNE_WRITES), SOODHIQUNE_BEYOND_TITLE));
}

/* a writer that meets a reader goes back, and takes a node anew though its claim ends with the title: document 01's H9 and H10 */
static void check_back(void)
{
    const uint32_t first[] = {0, 0}, second[] = {1, 1, 1}, others[] = {3, 3, 2, 2, 3, 2};
    uint32_t table[SOODHIQUNE_NODE_WORDS(8)], four[SOODHIQUNE_SEAT_WORDS(4)];
#define H9 table, on->node_words(8), four, on->seat_words(4)
    on->clear(H9, 20);
    enters(H9, 0, 1, 10, SOODHIQUNE_READS);
    on->run(H9, ENTRIES(first), 9);
    enters(H9, 1, 12, 14, SOODHIQUNE_READS);
    on->run(H9, ENTRIES(second), 9);
    enters(H9, 2, 5, 20, SOODHIQUNE_READS);
    enters(H9, 3, 15, 20, SOODHIQUNE_WRITES);
    on->run(H9, ENTRIES(others), 9);
    check("a reader meets a writer that it shares frames with", waits(stepped(H9, 2), 4, 15, 20));
    check("it waits on, and is told so again", waits(stepped(H9, 2), 4, 15, 20));
    check("the writer looks at the readers", answers(stepped(H9, 3), SOODHIQUNE_ON, 0));
    check("the writer goes back", answers(stepped(H9, 3), SOODHIQUNE_BACK, 0));
    check("what is withdrawn has not reserved", refuses(on->enter(H9, 3), SOODHIQUNE_NOT_RESERVED));
    check("the writer takes a node anew", answers(stepped(H9, 3), SOODHIQUNE_ON, 0) && table[SOODHIQUNE_TITLE] == 20);
    check("and enters with it", answers(on->enter(H9, 3), SOODHIQUNE_ON, 0));
    check("the reader's wait is over", answers(stepped(H9, 2), SOODHIQUNE_ON, 0));
}

static void check_board(void)
{
    const size_t row_words = SOODHIQUNE_ROW_WORDS(2);
    uint32_t rows[SOODHIQUNE_ROW_WORDS(2)], untouched[SOODHIQUNE_ROW_WORDS(2)], wanted[SOODHIQUNE_ROW_WORDS(2)];
    uint64_t covered = UNTOUCHED;
    size_t word;
    for (word = 0; word < row_words; word++) {
        rows[word] = untouched[word] = wanted[word] = UNTOUCHED;
    }
    wanted[SOODHIQUNE_ROW_SEAT] = 1;
    wanted[SOODHIQUNE_ROW_START] = 15;
    wanted[SOODHIQUNE_ROW_END] = 25;
    wanted[SOODHIQUNE_ROW_KIND] = SOODHIQUNE_WRITES;
    check("no room for a row",
          refuses(on->board(TABLES, rows, SOODHIQUNE_ROW_WORDS(1) - 1, &covered), SOODHIQUNE_BOARD_TOO_SHORT));
    check("nothing stored", memcmp(rows, untouched, sizeof rows) == 0 && covered == UNTOUCHED);
    check("seat 1 holds", counts(on->board(TABLES, rows, row_words, &covered), 1));
    check("its row, and the next kept", memcmp(rows, wanted, sizeof rows) == 0 && covered == 10);
}

/* a frame that two readers hold is covered once: document 02's example */
static void check_covered(void)
{
    const uint32_t first[] = {0, 0}, second[] = {1, 1, 1};
    uint32_t table[SOODHIQUNE_NODE_WORDS(2)], both[SOODHIQUNE_SEAT_WORDS(2)], rows[SOODHIQUNE_ROW_WORDS(2)];
    uint64_t covered = UNTOUCHED;
#define BOTH table, on->node_words(2), both, on->seat_words(2)
    on->clear(BOTH, 100);
    enters(BOTH, 0, 0, 100, SOODHIQUNE_READS);
    on->run(BOTH, ENTRIES(first), 9);
    enters(BOTH, 1, 50, 60, SOODHIQUNE_READS);
    on->run(BOTH, ENTRIES(second), 9);
    check("two readers hold", counts(on->board(BOTH, rows, SOODHIQUNE_ROW_WORDS(2), &covered), 2));
    check("their shared frames are covered once, which is the whole title", covered == 100 && covered == table[SOODHIQUNE_TITLE]);
}

/* seat 1 writes 15 up to 25 and waits at seat 0's claim of these frames, told that it shares those */
static int waits_at(uint32_t *table, uint32_t *both, uint32_t start, uint32_t end, uint32_t first, uint32_t shared_end)
{
    const uint32_t holds[] = {0, 0};
    on->clear(BOTH, UINT32_MAX);
    enters(BOTH, 0, start, end, SOODHIQUNE_READS);
    on->run(BOTH, ENTRIES(holds), 9);
    enters(BOTH, 1, 15, 25, SOODHIQUNE_WRITES);
    return waits(stepped(BOTH, 1), 1, first, shared_end);
}

/* which frames clash: document 02's fifth request */
static void check_shared(void)
{
    uint32_t table[SOODHIQUNE_NODE_WORDS(2)], both[SOODHIQUNE_SEAT_WORDS(2)];
    uint32_t *end_of_node_1 = table + on->node_words(0) + 1, *cur_of_seat_1 = both + on->seat_words(1) + 3;
    check("a part of each claim is shared", waits_at(table, both, 10, 20, 15, 20) && waits_at(table, both, 20, 30, 20, 25));
    check("all of the waiting claim", waits_at(table, both, 0, 100, 15, 25) && waits_at(table, both, 0, UINT32_MAX, 15, 25));
    check("all of the claim waited at", waits_at(table, both, 17, 19, 17, 19));
    check("all of both", waits_at(table, both, 15, 25, 15, 25));
    check("a frame", waits_at(table, both, 24, UINT32_MAX, 24, 25) && waits_at(table, both, 0, 16, 15, 16));
    *end_of_node_1 = 15;
    check("no frame, in a table that no call leaves", waits(stepped(BOTH, 1), 1, 0, 0));
    *cur_of_seat_1 = 2;
    check("at its own node, in such a table", waits(stepped(BOTH, 1), 2, 15, 25));
    on->clear(BOTH, UINT32_MAX);
    enters(BOTH, 0, 0, UINT32_MAX, SOODHIQUNE_WRITES);
    stepped(BOTH, 0);
    enters(BOTH, 1, 0, UINT32_MAX, SOODHIQUNE_WRITES);
    check("all frames there are", waits(stepped(BOTH, 1), 1, 0, UINT32_MAX));
}

static int holding(const uint32_t *table, uint32_t readers, uint32_t writers)
{
    return table[SOODHIQUNE_HOLDING_READERS] == readers && table[SOODHIQUNE_HOLDING_WRITERS] == writers;
}

/* a call refuses a table with these counts, and leaves them */
static int damages(uint32_t *table, const uint32_t *four, uint32_t readers, uint32_t writers)
{
    table[SOODHIQUNE_HOLDING_READERS] = readers;
    table[SOODHIQUNE_HOLDING_WRITERS] = writers;
    return refuses(on->free_count(table, on->node_words(4), four, on->seat_words(4)), SOODHIQUNE_DAMAGED) &&
           holding(table, readers, writers);
}

/* what the wall display reads after each message: document 02's second request */
static void check_counts(void)
{
    const uint32_t first[] = {0, 0}, second[] = {1, 1, 1}, third[] = {2, 2, 2, 2, 2, 2};
    uint32_t table[SOODHIQUNE_NODE_WORDS(4)], four[SOODHIQUNE_SEAT_WORDS(4)];
#define FOUR table, on->node_words(4), four, on->seat_words(4)
    check("nobody holds in fresh tables", on->clear(FOUR, 30) == SOODHIQUNE_ACCEPTED && holding(table, 0, 0));
    on->reserve(FOUR, 0, 0, 10, SOODHIQUNE_READS);
    check("a claim that has a node does not hold", holding(table, 0, 0));
    check("nor does one that entered", answers(on->enter(FOUR, 0), SOODHIQUNE_ON, 0) && holding(table, 0, 0));
    check("a reader holds", ran(on->run(FOUR, ENTRIES(first), 9), 2, SOODHIQUNE_ACCEPTED) && holding(table, 1, 0));
    enters(FOUR, 1, 5, 10, SOODHIQUNE_READS);
    check("two readers hold", ran(on->run(FOUR, ENTRIES(second), 9), 3, SOODHIQUNE_ACCEPTED) && holding(table, 2, 0));
    enters(FOUR, 2, 20, 30, SOODHIQUNE_WRITES);
    check("a writer is on its way", ran(on->run(FOUR, ENTRIES(third), 5), 5, SOODHIQUNE_ACCEPTED) && holding(table, 2, 0));
    check("the writer holds", answers(stepped(FOUR, 2), SOODHIQUNE_HELD, 0) && holding(table, 2, 1));
    check("a holder that steps is counted once", answers(stepped(FOUR, 2), SOODHIQUNE_HELD, 0) && holding(table, 2, 1));
    check("a refused call", refuses(on->release(FOUR, 3), SOODHIQUNE_NOT_HOLDING) && holding(table, 2, 1));
    check("a reader too many is damage", damages(table, four, 3, 1));
    check("a reader too few is damage", damages(table, four, 1, 1));
    check("a writer too many is damage", damages(table, four, 2, 2));
    check("a writer too few is damage", damages(table, four, 2, 0));
    check("the two the other way round are damage", damages(table, four, 1, 2));
    table[SOODHIQUNE_HOLDING_READERS] = 2;
    table[SOODHIQUNE_HOLDING_WRITERS] = 1;
    check("a reader releases", answers(on->release(FOUR, 0), SOODHIQUNE_OUT, 0) && holding(table, 1, 1));
    check("the writer releases", answers(on->release(FOUR, 2), SOODHIQUNE_OUT, 0) && holding(table, 1, 0));
    check("cleared, nobody holds", on->clear(FOUR, 30) == SOODHIQUNE_ACCEPTED && holding(table, 0, 0));
}

/* a call refuses a table with this title, and leaves it */
static int damages_title(uint32_t *table, const uint32_t *four, uint32_t title)
{
    table[SOODHIQUNE_TITLE] = title;
    return refuses(on->free_count(table, on->node_words(4), four, on->seat_words(4)), SOODHIQUNE_DAMAGED) &&
           table[SOODHIQUNE_TITLE] == title;
}

/* the title has an end: document 02's third request */
static void check_title(void)
{
    const uint32_t first[] = {0, 0, 0};
    uint32_t table[SOODHIQUNE_NODE_WORDS(4)], four[SOODHIQUNE_SEAT_WORDS(4)];
    size_t word;
    int zeros = 1;
    memset(table, 7, sizeof table);
    memset(four, 7, sizeof four);
    check("a title of no frames", refuses(on->clear(FOUR, 0), SOODHIQUNE_EMPTY_TITLE) && table[SOODHIQUNE_TITLE] == 0x07070707);
    check("no frames, and a word too few",
          refuses(on->clear(table, on->node_words(4) - 1, four, on->seat_words(4), 0), SOODHIQUNE_DAMAGED));
    check("a title of 20 frames", on->clear(FOUR, 20) == SOODHIQUNE_ACCEPTED && table[SOODHIQUNE_TITLE] == 20);
    for (word = 0; word < on->node_words(4); word++) {
        zeros = zeros && (word == SOODHIQUNE_TITLE || table[word] == 0);
    }
    check("0 everywhere else", zeros);
    check("a frame beyond", refuses(on->reserve(FOUR, 0, 10, 21, SOODHIQUNE_WRITES), SOODHIQUNE_BEYOND_TITLE));
    check("beyond, and empty", refuses(on->reserve(FOUR, 0, 21, 21, SOODHIQUNE_WRITES), SOODHIQUNE_EMPTY_CLAIM));
    check("beyond, and of no known kind", refuses(on->reserve(FOUR, 0, 10, 21, 9), SOODHIQUNE_BEYOND_TITLE));
    check("up to the end", answers(on->reserve(FOUR, 0, 10, 20, SOODHIQUNE_WRITES), SOODHIQUNE_NODE, 1));
    check("beyond, by a seat that has a claim",
          refuses(on->reserve(FOUR, 0, 10, 21, SOODHIQUNE_WRITES), SOODHIQUNE_BEYOND_TITLE));
    check("it holds, and the title stays",
          ran(on->run(FOUR, ENTRIES(first), 9), 3, SOODHIQUNE_ACCEPTED) && table[SOODHIQUNE_TITLE] == 20);
    check("no title is damage", damages_title(table, four, 0));
    check("a frame short of an end is damage", damages_title(table, four, 19));
    table[SOODHIQUNE_TITLE] = 20;
    check("released, and the title stays", answers(on->release(FOUR, 0), SOODHIQUNE_OUT, 0) && table[SOODHIQUNE_TITLE] == 20);
    check("a released claim still needs its frames", damages_title(table, four, 19));
    check("the longest title", on->clear(FOUR, UINT32_MAX) == SOODHIQUNE_ACCEPTED && table[SOODHIQUNE_TITLE] == UINT32_MAX);
    check("and all of it", answers(on->reserve(FOUR, 0, 0, UINT32_MAX, SOODHIQUNE_WRITES), SOODHIQUNE_NODE, 1));
    check("the shortest title", on->clear(FOUR, 1) == SOODHIQUNE_ACCEPTED && table[SOODHIQUNE_TITLE] == 1);
    check("a frame that it does not have", refuses(on->reserve(FOUR, 0, 1, 2, SOODHIQUNE_WRITES), SOODHIQUNE_BEYOND_TITLE));
    check("its frame", answers(on->reserve(FOUR, 0, 0, 1, SOODHIQUNE_WRITES), SOODHIQUNE_NODE, 1));
}

/* enter is refused for a seat that has not reserved, and leaves both tables */
static int not_reserved(uint32_t *table, uint32_t *four, uint32_t seat)
{
    uint32_t table_found[SOODHIQUNE_NODE_WORDS(4)], four_found[SOODHIQUNE_SEAT_WORDS(4)];
    memcpy(table_found, table, sizeof table_found);
    memcpy(four_found, four, sizeof four_found);
    return refuses(on->enter(FOUR, seat), SOODHIQUNE_NOT_RESERVED) && memcmp(table, table_found, sizeof table_found) == 0 &&
           memcmp(four, four_found, sizeof four_found) == 0;
}

/* a node is reserved when the worker connects: document 02's seventh request */
static void check_reserved(void)
{
    uint32_t table[SOODHIQUNE_NODE_WORDS(4)], four[SOODHIQUNE_SEAT_WORDS(4)], table_found[SOODHIQUNE_NODE_WORDS(4)];
    const uint32_t *words = four + on->seat_words(1);
    on->clear(FOUR, 100);
    check("an idle seat does not enter", not_reserved(table, four, 0));
    check("two reserve", answers(on->reserve(FOUR, 0, 0, 10, SOODHIQUNE_WRITES), SOODHIQUNE_NODE, 1) &&
          answers(on->reserve(FOUR, 1, 5, 15, SOODHIQUNE_WRITES), SOODHIQUNE_NODE, 2));
    check("their nodes are not free", counts(on->free_count(FOUR), 2));
    check("the list is as it was", table[SOODHIQUNE_HEAD] == 0 && words[0] == 7 && words[1] == 2 && words[2] == 0 && words[3] == 0);
    check("a reserved seat has a claim", refuses(on->reserve(FOUR, 1, 5, 15, SOODHIQUNE_WRITES), SOODHIQUNE_SEAT_HAS_CLAIM));
    check("and does not hold", refuses(on->release(FOUR, 1), SOODHIQUNE_NOT_HOLDING));
    check("the first enters by a step", answers(stepped(FOUR, 0), SOODHIQUNE_ON, 0) && not_reserved(table, four, 0));
    check("it is linked", answers(stepped(FOUR, 0), on->links, 0) && not_reserved(table, four, 0));
    check("it holds", answers(stepped(FOUR, 0), SOODHIQUNE_HELD, 0) && not_reserved(table, four, 0));
    memcpy(table_found, table, sizeof table_found);
    check("the second enters at the head as it is now", answers(on->enter(FOUR, 1), SOODHIQUNE_ON, 0) && words[0] == 1 &&
          words[1] == 2 && words[2] == 0 && words[3] == 1);
    check("no node changed", memcmp(table, table_found, sizeof table_found) == 0);
    check("it waits", waits(stepped(FOUR, 1), 1, 5, 10) && not_reserved(table, four, 1));
    check("no such seat", refuses(on->enter(FOUR, 4), SOODHIQUNE_NO_SUCH_SEAT));
    four[on->seat_words(2)] = 8;
    four[on->seat_words(2) + 1] = 1;
    check("there is no phase 8", refuses(on->enter(FOUR, 4), SOODHIQUNE_DAMAGED));
    four[on->seat_words(2)] = 7;
    check("phase 7 has a node", answers(on->enter(FOUR, 2), SOODHIQUNE_ON, 0));
}

/* tables of the set in which seat 0 has reserved node 1, with this phase and this cur there, and this kind in the node */
static void put_reserved(uint32_t *table, uint32_t *four, uint32_t phase, uint32_t cur, uint32_t kind)
{
    on->clear(FOUR, 30);
    on->reserve(FOUR, 0, 0, 10, SOODHIQUNE_WRITES);
    four[0] = phase;
    four[3] = cur;
    table[on->node_words(0) + 2] = kind;
}

static int takes(uint32_t phase, uint32_t cur, uint32_t kind)
{
    uint32_t table[SOODHIQUNE_NODE_WORDS(4)], four[SOODHIQUNE_SEAT_WORDS(4)];
    put_reserved(table, four, phase, cur, kind);
    return counts(on->free_count(FOUR), 3);
}

static int all_find_damage(uint32_t *table, uint32_t *four)
{
    const uint32_t first[] = {0};
    uint32_t rows[SOODHIQUNE_ROW_WORDS(4)];
    uint64_t covered = UNTOUCHED;
    return refuses(on->reserve(FOUR, 1, 10, 20, SOODHIQUNE_WRITES), SOODHIQUNE_DAMAGED) &&
           refuses(on->enter(FOUR, 0), SOODHIQUNE_DAMAGED) && refuses(stepped(FOUR, 0), SOODHIQUNE_DAMAGED) &&
           refuses(on->release(FOUR, 0), SOODHIQUNE_DAMAGED) && ran(on->run(FOUR, ENTRIES(first), 9), 0, SOODHIQUNE_DAMAGED) &&
           refuses(on->board(FOUR, rows, SOODHIQUNE_ROW_WORDS(4), &covered), SOODHIQUNE_DAMAGED) && covered == UNTOUCHED &&
           refuses(on->free_count(FOUR), SOODHIQUNE_DAMAGED);
}

/* the phases and the kind that a writers' sheet does not have are sound in ordinary tables */
static void check_phases_and_kinds(void)
{
    const int sound = on == &ordinary;
    check("phases 1, 2 and 7", takes(1, 0, SOODHIQUNE_WRITES) && takes(2, 1, SOODHIQUNE_WRITES) && takes(7, 0, SOODHIQUNE_WRITES));
    check("phase 3", takes(3, 0, SOODHIQUNE_WRITES) == sound);
    check("phase 4", takes(4, 1, SOODHIQUNE_WRITES) == sound);
    check("phase 6", takes(6, 0, SOODHIQUNE_WRITES) == sound);
    check("phase 8", !takes(8, 0, SOODHIQUNE_WRITES));
    check("a node that reads", takes(7, 0, SOODHIQUNE_READS) == sound);
}

/* a catalogue of writers only: document 02's eighth request */
static void check_sheet(void)
{
    const uint32_t third[] = {2, 2, 2, 9}, second[] = {1, 1, 1};
    uint32_t table[SOODHIQUNE_NODE_WORDS(4)], four[SOODHIQUNE_SEAT_WORDS(4)], rows[SOODHIQUNE_ROW_WORDS(4)];
    uint64_t covered = UNTOUCHED;
    check("nobody holds in a fresh one", on->clear(FOUR, 30) == SOODHIQUNE_ACCEPTED && holding(table, 0, 0));
    check("a claim that reads", refuses(on->reserve(FOUR, 0, 0, 10, SOODHIQUNE_READS), SOODHIQUNE_NO_SUCH_KIND));
    check("one that reads beyond the title", refuses(on->reserve(FOUR, 0, 0, 31, SOODHIQUNE_READS), SOODHIQUNE_BEYOND_TITLE));
    enters(FOUR, 0, 0, 10, SOODHIQUNE_WRITES);
    check("seat 0 holds once it is linked", answers(stepped(FOUR, 0), SOODHIQUNE_HELD, 0) && holding(table, 0, 1));
    check("a seat that has a claim reads", refuses(on->reserve(FOUR, 0, 0, 10, SOODHIQUNE_READS), SOODHIQUNE_NO_SUCH_KIND));
    enters(FOUR, 1, 5, 15, SOODHIQUNE_WRITES);
    check("seat 1 waits for the frames that both write", waits(stepped(FOUR, 1), 1, 5, 10) && holding(table, 0, 1));
    enters(FOUR, 2, 10, 20, SOODHIQUNE_WRITES);
    check("seat 2 starts where seat 0 ends, and holds", ran(on->run(FOUR, ENTRIES(third), 9), 3, SOODHIQUNE_NO_SUCH_SEAT) &&
          holding(table, 0, 2));
    check("what both cover", counts(on->board(FOUR, rows, SOODHIQUNE_ROW_WORDS(4), &covered), 2) && covered == 20 &&
          rows[SOODHIQUNE_ROW_WORDS(1) + SOODHIQUNE_ROW_SEAT] == 2 && rows[SOODHIQUNE_ROW_KIND] == SOODHIQUNE_WRITES);
    check("a node is free", counts(on->free_count(FOUR), 1));
    check("seat 0 releases", answers(on->release(FOUR, 0), SOODHIQUNE_OUT, 0) && holding(table, 0, 1));
    check("seat 1 comes to seat 2", ran(on->run(FOUR, ENTRIES(second), 9), 3, SOODHIQUNE_ACCEPTED) && waits(stepped(FOUR, 1), 3, 10, 15));
    check("seat 2 releases", answers(on->release(FOUR, 2), SOODHIQUNE_OUT, 0) && holding(table, 0, 0));
    check("seat 1 holds at last", ran(on->run(FOUR, ENTRIES(second), 9), 3, SOODHIQUNE_ACCEPTED) && holding(table, 0, 1));
    put_reserved(table, four, 7, 0, SOODHIQUNE_READS);
    check("calls find a node that reads", all_find_damage(table, four));
}

static int wrong_first_line(const char *script, uint32_t *numbers)
{
    const uint64_t given = soodhiqune_read(TEXT(script), numbers);
    return soodhiqune_read_refusal(given) == SOODHIQUNE_BAD_SCRIPT && soodhiqune_wrong_line(given) == 1;
}

static void check_scripts(void)
{
    static uint32_t numbers[SOODHIQUNE_SCRIPT_NUMBERS];
    static uint8_t printed[SOODHIQUNE_PRINTED_BYTES], too_long[SOODHIQUNE_MOST_SCRIPT_BYTES + 1];
    const char *good = "4 3 3 20\nv 0 10 20 2\ns 2\ne 0\n", *lines = "1 node 1\n2 no 6\n3 on\nlist\ncovered 0\n";
    const char *bad = "4 3 1 20\ns 00\n", *without_v = "4 3 1 20\nb 0 10 20 2\n";
    const char *beyond = "4 3 1 20\nv 0 10 21 2\n", *refused = "1 no 11\nlist\ncovered 0\n";
    const uint32_t *first = numbers + SOODHIQUNE_SCRIPT_ROW(0), *second = numbers + SOODHIQUNE_SCRIPT_ROW(1);
    const uint32_t *third = numbers + SOODHIQUNE_SCRIPT_ROW(2);
    uint64_t given = soodhiqune_read(TEXT(bad), numbers);
    check("a bad line", soodhiqune_read_refusal(given) == SOODHIQUNE_BAD_SCRIPT && soodhiqune_wrong_line(given) == 2);
    given = soodhiqune_read(TEXT(without_v), numbers);
    check("a b line", soodhiqune_read_refusal(given) == SOODHIQUNE_BAD_SCRIPT && soodhiqune_wrong_line(given) == 2);
    given = soodhiqune_read(too_long, sizeof too_long, numbers);
    check("a script too long", soodhiqune_read_refusal(given) == SOODHIQUNE_BAD_SCRIPT && soodhiqune_wrong_line(given) == 0);
    check("the longest is read", soodhiqune_wrong_line(soodhiqune_read(too_long, sizeof too_long - 1, numbers)) == 1);
    check("a good script", soodhiqune_read_refusal(soodhiqune_read(TEXT(good), numbers)) == SOODHIQUNE_ACCEPTED);
    check("its contents", numbers[SOODHIQUNE_SCRIPT_NODES] == 4 && numbers[SOODHIQUNE_SCRIPT_SEATS] == 3 &&
          numbers[SOODHIQUNE_SCRIPT_COUNT] == 3 && numbers[SOODHIQUNE_SCRIPT_TITLE] == 20);
    check("its first line", first[SOODHIQUNE_LINE_CODE] == SOODHIQUNE_RESERVE && first[SOODHIQUNE_LINE_SEAT] == 0 &&
          first[SOODHIQUNE_LINE_START] == 10 && first[SOODHIQUNE_LINE_END] == 20 && first[SOODHIQUNE_LINE_KIND] == SOODHIQUNE_WRITES);
    check("its second line", second[SOODHIQUNE_LINE_CODE] == SOODHIQUNE_STEP && second[SOODHIQUNE_LINE_SEAT] == 2);
    check("its third line", third[SOODHIQUNE_LINE_CODE] == SOODHIQUNE_ENTER && third[SOODHIQUNE_LINE_SEAT] == 0 &&
          third[SOODHIQUNE_LINE_START] == 0 && third[SOODHIQUNE_LINE_END] == 0 && third[SOODHIQUNE_LINE_KIND] == 0);
    check("no title", wrong_first_line("4 3 0\n", numbers));
    check("title 0", wrong_first_line("4 3 0 0\n", numbers));
    check("a title too large", wrong_first_line("4 3 0 4294967296\n", numbers));
    check("a number behind the title", wrong_first_line("4 3 0 20 1\n", numbers) && numbers[SOODHIQUNE_SCRIPT_TITLE] == 20);
    check("no fourth line", numbers[SOODHIQUNE_SCRIPT_ROW(3) + SOODHIQUNE_LINE_CODE] == SOODHIQUNE_NO_LINE);
    check("played", soodhiqune_play(TEXT(good), printed) == strlen(lines) && memcmp(printed, lines, strlen(lines)) == 0);
    check("played beyond its title", soodhiqune_play(TEXT(beyond), printed) == strlen(refused) &&
          memcmp(printed, refused, strlen(refused)) == 0);
}

/* a claim waits at another, told so with numbers of ten digits as often as a script has lines: more than 32,768 bytes */
static void check_longest_waits(void)
{
    static char script[SOODHIQUNE_MOST_SCRIPT_BYTES];
    static uint8_t printed[SOODHIQUNE_PRINTED_BYTES];
    const char *wait = "\n1000 wait 1 1000000000 4294967295\nlist 1\nhold 0 1000000000 4294967295 2\ncovered 3294967295\n";
    size_t length;
    int line;
    strcpy(script, "2 2 1000 4294967295\nv 0 1000000000 4294967295 2\ne 0\ns 0\ns 0\nv 1 1000000000 4294967295 2\ne 1\n");
    for (line = 7; line <= SOODHIQUNE_MOST_SCRIPT_ROWS; line++) {
        strcat(script, "s 1\n");
    }
    length = (size_t)soodhiqune_play(TEXT(script), printed);
    check("994 waits", length == 32804 && memcmp(printed + length - strlen(wait), wait, strlen(wait)) == 0);
}

enum { RECORDS = 3, MOVED_WORDS = 3 * RECORDS, ROOM = MOVED_WORDS + 2 };

static int64_t locks[ROOM];
static uint32_t claims[ROOM];

static void put_lock(size_t place, int64_t type, int64_t start, int64_t length)
{
    int64_t *lock = locks + SOODHIQUNE_LOCK_WORDS(place);
    lock[SOODHIQUNE_LOCK_TYPE] = type;
    lock[SOODHIQUNE_LOCK_START] = start;
    lock[SOODHIQUNE_LOCK_LENGTH] = length;
}

static void put_claim(size_t place, uint32_t start, uint32_t end, uint32_t kind)
{
    uint32_t *claim = claims + SOODHIQUNE_CLAIM_WORDS(place);
    claim[SOODHIQUNE_CLAIM_START] = start;
    claim[SOODHIQUNE_CLAIM_END] = end;
    claim[SOODHIQUNE_CLAIM_KIND] = kind;
}

static int is_lock(size_t place, int64_t type, int64_t start, int64_t length)
{
    const int64_t *lock = locks + SOODHIQUNE_LOCK_WORDS(place);
    return lock[SOODHIQUNE_LOCK_TYPE] == type && lock[SOODHIQUNE_LOCK_START] == start && lock[SOODHIQUNE_LOCK_LENGTH] == length;
}

static int is_claim(size_t place, uint32_t start, uint32_t end, uint32_t kind)
{
    const uint32_t *claim = claims + SOODHIQUNE_CLAIM_WORDS(place);
    return claim[SOODHIQUNE_CLAIM_START] == start && claim[SOODHIQUNE_CLAIM_END] == end && claim[SOODHIQUNE_CLAIM_KIND] == kind;
}

/* words from this one on are as found */
static int claims_stay(size_t word)
{
    for (; word < ROOM; word++) {
        if (claims[word] != UNTOUCHED) {
            return 0;
        }
    }
    return 1;
}

static int locks_stay(size_t word)
{
    for (; word < ROOM; word++) {
        if (locks[word] != UNTOUCHED) {
            return 0;
        }
    }
    return 1;
}

static int moves(struct soodhiqune_moved moved, enum soodhiqune_refusal refusal, size_t place)
{
    return moved.refusal == (uint32_t)refusal && moved.place == place;
}

/* import of three locks into so many words, which stay if it is refused: in a title of 20 frames the first two are good */
static int imports(uint32_t title, int64_t type, int64_t start, int64_t length, size_t words, enum soodhiqune_refusal refusal, size_t place)
{
    struct soodhiqune_moved moved;
    size_t word;
    for (word = 0; word < ROOM; word++) {
        claims[word] = UNTOUCHED;
    }
    put_lock(0, SOODHIQUNE_READS, 10, 5);
    put_lock(1, SOODHIQUNE_WRITES, 15, -5);
    put_lock(2, type, start, length);
    moved = soodhiqune_import(title, locks, SOODHIQUNE_LOCK_WORDS(RECORDS), claims, words);
    return moves(moved, refusal, place) && (refusal == SOODHIQUNE_ACCEPTED || claims_stay(0));
}

/* export of three claims likewise */
static int exports(uint32_t title, uint32_t start, uint32_t end, uint32_t kind, size_t words, enum soodhiqune_refusal refusal, size_t place)
{
    struct soodhiqune_moved moved;
    size_t word;
    for (word = 0; word < ROOM; word++) {
        locks[word] = UNTOUCHED;
    }
    put_claim(0, 10, 15, SOODHIQUNE_READS);
    put_claim(1, 0, 1, SOODHIQUNE_WRITES);
    put_claim(2, start, end, kind);
    moved = soodhiqune_export(title, claims, SOODHIQUNE_CLAIM_WORDS(RECORDS), locks, words);
    return moves(moved, refusal, place) && (refusal == SOODHIQUNE_ACCEPTED || locks_stay(0));
}

/* locks from the archive's file system: document 02's sixth request */
static void check_import(void)
{
    const int64_t last = UINT32_MAX;
    check("locks are read", imports(20, SOODHIQUNE_WRITES, 15, 0, MOVED_WORDS, SOODHIQUNE_ACCEPTED, 0));
    check("their claims, and the words behind them kept", is_claim(0, 10, 15, SOODHIQUNE_READS) && is_claim(1, 10, 15, SOODHIQUNE_WRITES) &&
          is_claim(2, 15, 20, SOODHIQUNE_WRITES) && claims_stay(MOVED_WORDS));
    check("room to spare", imports(20, SOODHIQUNE_READS, 20, -20, ROOM, SOODHIQUNE_ACCEPTED, 0) && is_claim(2, 0, 20, SOODHIQUNE_READS) &&
          claims_stay(MOVED_WORDS));
    check("all frames there are", imports(UINT32_MAX, 1, 0, last, ROOM, SOODHIQUNE_ACCEPTED, 0) && is_claim(2, 0, UINT32_MAX, 1));
    check("the last of them", imports(UINT32_MAX, 1, last, -1, ROOM, SOODHIQUNE_ACCEPTED, 0) && is_claim(2, UINT32_MAX - 1, UINT32_MAX, 1));
    check("a run below 0", imports(20, 1, -1, 5, ROOM, SOODHIQUNE_NO_RUN, 2) && imports(20, 1, 5, -6, ROOM, SOODHIQUNE_NO_RUN, 2) &&
          imports(20, 1, -1, 0, ROOM, SOODHIQUNE_NO_RUN, 2));
    check("an empty run", imports(20, 1, 20, 0, ROOM, SOODHIQUNE_NO_RUN, 2) && imports(20, 1, 21, 0, ROOM, SOODHIQUNE_NO_RUN, 2));
    check("a run past 4,294,967,295", imports(UINT32_MAX, 1, last, 1, ROOM, SOODHIQUNE_NO_RUN, 2) &&
          imports(UINT32_MAX, 1, last + 1, -1, ROOM, SOODHIQUNE_NO_RUN, 2));
    check("sums that 64 bits do not hold", imports(20, 1, INT64_MAX, INT64_MAX, ROOM, SOODHIQUNE_NO_RUN, 2) &&
          imports(20, 1, INT64_MIN, INT64_MIN, ROOM, SOODHIQUNE_NO_RUN, 2) && imports(20, 1, INT64_MIN, -1, ROOM, SOODHIQUNE_NO_RUN, 2));
    check("the lowest length", imports(20, 1, 0, INT64_MIN, ROOM, SOODHIQUNE_NO_RUN, 2) &&
          imports(20, 1, INT64_MAX, INT64_MIN, ROOM, SOODHIQUNE_NO_RUN, 2));
    check("no run, and an unknown type", imports(20, 9, -1, 5, ROOM, SOODHIQUNE_NO_RUN, 2));
    check("an unknown type", imports(20, 0, 10, 5, ROOM, SOODHIQUNE_NO_SUCH_TYPE, 2) &&
          imports(20, 3, 10, 5, ROOM, SOODHIQUNE_NO_SUCH_TYPE, 2));
    check("a type by its lowest 32 bits", imports(20, last + 2, 10, 5, ROOM, SOODHIQUNE_NO_SUCH_TYPE, 2));
    check("an unknown type, and beyond the title", imports(20, 9, 10, 11, ROOM, SOODHIQUNE_NO_SUCH_TYPE, 2));
    check("a lock beyond the title", imports(20, 2, 10, 11, ROOM, SOODHIQUNE_BEYOND_TITLE, 2) &&
          imports(20, 2, 21, -1, ROOM, SOODHIQUNE_BEYOND_TITLE, 2));
    check("the first bad lock decides", imports(14, 1, -1, 5, ROOM, SOODHIQUNE_BEYOND_TITLE, 0));
    check("a list a word too short", imports(20, 1, 10, 5, MOVED_WORDS - 1, SOODHIQUNE_LIST_TOO_SHORT, 0));
    check("no list for three", imports(20, 1, 10, 5, 0, SOODHIQUNE_LIST_TOO_SHORT, 0));
    check("a bad lock behind the room", imports(20, 1, -1, 5, SOODHIQUNE_CLAIM_WORDS(1), SOODHIQUNE_NO_RUN, 2));
    check("no title, before all else", imports(0, 1, -1, 5, 0, SOODHIQUNE_EMPTY_TITLE, 0) &&
          imports(0, 1, 0, 1, ROOM, SOODHIQUNE_EMPTY_TITLE, 0));
    put_lock(1, 9, -1, -1);
    check("a rest is no lock", moves(soodhiqune_import(20, locks, SOODHIQUNE_LOCK_WORDS(1) + 2, claims, 3), SOODHIQUNE_ACCEPTED, 0) &&
          is_claim(0, 10, 15, SOODHIQUNE_READS) && claims_stay(3));
}

static void check_export(void)
{
    check("claims are written", exports(20, 15, 20, SOODHIQUNE_WRITES, MOVED_WORDS, SOODHIQUNE_ACCEPTED, 0));
    check("their locks, and the words behind them kept", is_lock(0, SOODHIQUNE_READS, 10, 5) && is_lock(1, SOODHIQUNE_WRITES, 0, 1) &&
          is_lock(2, SOODHIQUNE_WRITES, 15, 0) && locks_stay(MOVED_WORDS));
    check("no frame before the title's end is open-ended", exports(20, 15, 19, 1, ROOM, SOODHIQUNE_ACCEPTED, 0) && is_lock(2, 1, 15, 4) &&
          locks_stay(MOVED_WORDS));
    check("all frames there are", exports(UINT32_MAX, 0, UINT32_MAX, 1, ROOM, SOODHIQUNE_ACCEPTED, 0) && is_lock(2, 1, 0, 0));
    check("all but the last", exports(UINT32_MAX, 0, UINT32_MAX - 1, 1, ROOM, SOODHIQUNE_ACCEPTED, 0) && is_lock(2, 1, 0, 4294967294));
    check("an empty claim to write", exports(20, 10, 10, 1, ROOM, SOODHIQUNE_EMPTY_CLAIM, 2) &&
          exports(20, 30, 29, 9, ROOM, SOODHIQUNE_EMPTY_CLAIM, 2));
    check("a claim beyond the title", exports(20, 10, 21, 1, ROOM, SOODHIQUNE_BEYOND_TITLE, 2) &&
          exports(20, 10, UINT32_MAX, 9, ROOM, SOODHIQUNE_BEYOND_TITLE, 2));
    check("a claim of no known kind", exports(20, 10, 15, 0, ROOM, SOODHIQUNE_NO_SUCH_KIND, 2) &&
          exports(20, 10, 20, 3, ROOM, SOODHIQUNE_NO_SUCH_KIND, 2));
    check("the first bad claim decides", exports(14, 10, 10, 9, ROOM, SOODHIQUNE_BEYOND_TITLE, 0));
    check("a list of locks a word too short", exports(20, 10, 15, 1, MOVED_WORDS - 1, SOODHIQUNE_LIST_TOO_SHORT, 0));
    check("a bad claim behind the room", exports(20, 10, 15, 9, 0, SOODHIQUNE_NO_SUCH_KIND, 2));
    check("no title to write for", exports(0, 10, 15, 1, ROOM, SOODHIQUNE_EMPTY_TITLE, 0) &&
          exports(0, 9, 9, 9, 0, SOODHIQUNE_EMPTY_TITLE, 0));
}

/* claims that are written and read are the same again, and may be reserved */
static void check_there_and_back(void)
{
    uint32_t table[SOODHIQUNE_NODE_WORDS(2)], both[SOODHIQUNE_SEAT_WORDS(2)];
    const uint32_t *last = claims + SOODHIQUNE_CLAIM_WORDS(2);
    exports(20, 15, 20, SOODHIQUNE_WRITES, ROOM, SOODHIQUNE_ACCEPTED, 0);
    memset(claims, 0, sizeof claims);
    check("what was written is read", moves(soodhiqune_import(20, locks, MOVED_WORDS, claims, MOVED_WORDS), SOODHIQUNE_ACCEPTED, 0));
    check("as the same claims", is_claim(0, 10, 15, SOODHIQUNE_READS) && is_claim(1, 0, 1, SOODHIQUNE_WRITES) &&
          is_claim(2, 15, 20, SOODHIQUNE_WRITES));
    on->clear(BOTH, 20);
    check("and such a claim is reserved",
          answers(on->reserve(BOTH, 0, last[SOODHIQUNE_CLAIM_START], last[SOODHIQUNE_CLAIM_END], last[SOODHIQUNE_CLAIM_KIND]),
                  SOODHIQUNE_NODE, 1));
}

/* seat 1 holds in the tables that there are, and releases */
static void check_no_tables(void)
{
    uint64_t covered = UNTOUCHED;
    check("no tables to clear", refuses(on->clear(NULL, 0, NULL, 0, 1), SOODHIQUNE_DAMAGED));
    check("no tables to clear, and no title", refuses(on->clear(NULL, 0, NULL, 0, 0), SOODHIQUNE_DAMAGED));
    check("no tables to reserve on", refuses(on->reserve(NULL, 0, NULL, 0, 0, 1, 2, SOODHIQUNE_WRITES), SOODHIQUNE_DAMAGED));
    check("no tables to enter on", refuses(on->enter(NULL, 0, NULL, 0, 0), SOODHIQUNE_DAMAGED));
    check("no nodes to enter on", refuses(on->enter(NULL, 0, SEAT_TABLE, 0), SOODHIQUNE_DAMAGED));
    check("no seats to enter", refuses(on->enter(NODE_TABLE, NULL, 0, 0), SOODHIQUNE_DAMAGED));
    check("no nodes to step on", refuses(stepped(NULL, 0, SEAT_TABLE, 0), SOODHIQUNE_DAMAGED));
    check("no seats to step", refuses(stepped(NODE_TABLE, NULL, 0, 0), SOODHIQUNE_DAMAGED));
    check("no tables to release on", refuses(on->release(NULL, 0, NULL, 0, 0), SOODHIQUNE_DAMAGED));
    check("no tables to run on", ran(on->run(NULL, 0, NULL, 0, NULL, 0, 9), 0, SOODHIQUNE_DAMAGED));
    check("no schedule", ran(on->run(TABLES, NULL, 0, 9), 0, SOODHIQUNE_ACCEPTED));
    check("no tables to show", refuses(on->board(NULL, 0, NULL, 0, NULL, 0, &covered), SOODHIQUNE_DAMAGED));
    check("no rows for a holder", refuses(on->board(TABLES, NULL, 0, &covered), SOODHIQUNE_BOARD_TOO_SHORT));
    check("covered as found", covered == UNTOUCHED);
    on->release(TABLES, 1);
    check("no rows for no holder", counts(on->board(TABLES, NULL, 0, &covered), 0) && covered == 0);
    check("no tables to count on", refuses(on->free_count(NULL, 0, NULL, 0), SOODHIQUNE_DAMAGED));
}

static void check_no_lists(void)
{
    static uint32_t numbers[SOODHIQUNE_SCRIPT_NUMBERS];
    static uint8_t printed[SOODHIQUNE_PRINTED_BYTES];
    check("no script to read", soodhiqune_wrong_line(soodhiqune_read(NULL, 0, numbers)) == 1);
    check("no locks to read", moves(soodhiqune_import(20, NULL, 0, NULL, 0), SOODHIQUNE_ACCEPTED, 0));
    check("no locks to read, and no title", moves(soodhiqune_import(0, NULL, 0, NULL, 0), SOODHIQUNE_EMPTY_TITLE, 0));
    check("no room for claims", moves(soodhiqune_import(20, locks, 3, NULL, 0), SOODHIQUNE_LIST_TOO_SHORT, 0));
    check("no claims to write", moves(soodhiqune_export(20, NULL, 0, NULL, 0), SOODHIQUNE_ACCEPTED, 0));
    check("no claims to write, and no title", moves(soodhiqune_export(0, NULL, 0, NULL, 0), SOODHIQUNE_EMPTY_TITLE, 0));
    check("no room for locks", moves(soodhiqune_export(20, claims, 3, NULL, 0), SOODHIQUNE_LIST_TOO_SHORT, 0));
    check("no script to play", soodhiqune_play(NULL, 0, printed) == strlen("bad 1\n") && memcmp(printed, "bad 1\n", 6) == 0);
}

/* what both sets of calls promise */
static void check_calls(const struct calls *set)
{
    on = set;
    check_lengths();
    check_claims();
    check_refusals();
    check_no_node();
    check_board();
    check_title();
    check_reserved();
    check_phases_and_kinds();
    check_no_tables();
}

int main(void)
{
    check_numbers();
    check_calls(&sheet);
    check_sheet();
    check_calls(&ordinary);
    check_back();
    check_covered();
    check_shared();
    check_counts();
    check_scripts();
    check_longest_waits();
    check_import();
    check_export();
    check_there_and_back();
    check_no_lists();
    printf("%d passed, %d failed\n", passed, failed);
    return failed != 0;
}
