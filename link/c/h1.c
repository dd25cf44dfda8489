/* An example for C: H1 of document 01, on a title of 25 frames. Seat 0 claims frames 10 up to 20 and holds them; seat 1 claims 15 up to
 * 25, waits, since both cover 15 up to 20, and holds once seat 0 has released. Prints what `./play < scripts/h01.txt` prints, but for the
 * list; then how much of the title is covered, for a planner, and how many hold, as a display would show it after each message.
 *
 *     cc h1.c $(pkg-config --cflags --libs soodhiqune) -o h1      after ./install --prefix DIR, with DIR/lib/pkgconfig in PKG_CONFIG_PATH
 */
#include <inttypes.h>
#include <soodhiqune.h>
#include <stdio.h>

enum { NODES = 4, SEATS = 3, FRAMES = 25 };
static uint32_t nodes[SOODHIQUNE_NODE_WORDS(NODES)], seats[SOODHIQUNE_SEAT_WORDS(SEATS)];
#define TABLES nodes, SOODHIQUNE_NODE_WORDS(NODES), seats, SOODHIQUNE_SEAT_WORDS(SEATS)

/* where a step that waits tells which frames it waits for */
static uint32_t shared[SOODHIQUNE_SHARED_WORDS];

static void say(uint64_t given)
{
    static const char *const words[] = {"no", "node", "out", "on", "wait", "held", "back"};
    static int calls;
    const enum soodhiqune_answer answer = soodhiqune_answer_of(given);
    printf("%d %s", ++calls, words[answer]);
    if (answer == SOODHIQUNE_REFUSED) {
        printf(" %d", (int)soodhiqune_refusal_of(given));
    } else if (answer == SOODHIQUNE_NODE || answer == SOODHIQUNE_WAIT) {
        printf(" %" PRIu32, soodhiqune_node_of(given));
    }
    if (answer == SOODHIQUNE_WAIT) {
        printf(" %" PRIu32 " %" PRIu32, shared[SOODHIQUNE_SHARED_FIRST], shared[SOODHIQUNE_SHARED_END]);
    }
    puts("");
}

static int show_holders(void)
{
    uint32_t rows[SOODHIQUNE_ROW_WORDS(SEATS)];
    uint64_t covered;
    const uint64_t given = soodhiqune_board(TABLES, rows, SOODHIQUNE_ROW_WORDS(SEATS), &covered);
    const uint32_t *row;
    if (soodhiqune_refusal_of(given) != SOODHIQUNE_ACCEPTED) {
        return 1;
    }
    for (row = rows; row < rows + SOODHIQUNE_ROW_WORDS(soodhiqune_count_of(given)); row += SOODHIQUNE_ROW_WORDS(1)) {
        printf("hold %" PRIu32 " %" PRIu32 " %" PRIu32 " %" PRIu32 "\n", row[SOODHIQUNE_ROW_SEAT], row[SOODHIQUNE_ROW_START],
               row[SOODHIQUNE_ROW_END], row[SOODHIQUNE_ROW_KIND]);
    }
    printf("covered %" PRIu64 "\n", covered);
    printf("%" PRIu64 " per cent of the title\n", 100 * covered / nodes[SOODHIQUNE_TITLE]);
    return 0;
}

/* no call: the table has the numbers */
static void show_display(void)
{
    printf("%" PRIu32 " read, %" PRIu32 " write\n", nodes[SOODHIQUNE_HOLDING_READERS], nodes[SOODHIQUNE_HOLDING_WRITERS]);
}

int main(void)
{
    int message;
    if (soodhiqune_clear(TABLES, FRAMES) != SOODHIQUNE_ACCEPTED) {
        return 1;
    }
    say(soodhiqune_reserve(TABLES, 0, 10, 20, SOODHIQUNE_WRITES));
    say(soodhiqune_enter(TABLES, 0));
    say(soodhiqune_step(TABLES, 0, shared));
    say(soodhiqune_step(TABLES, 0, shared));
    say(soodhiqune_reserve(TABLES, 1, 15, 25, SOODHIQUNE_WRITES));
    say(soodhiqune_enter(TABLES, 1));
    say(soodhiqune_step(TABLES, 1, shared));
    say(soodhiqune_release(TABLES, 0));
    for (message = 0; message < 4; message++) {
        say(soodhiqune_step(TABLES, 1, shared));
    }
    if (show_holders() != 0) {
        return 1;
    }
    show_display();
    return 0;
}
