/* The deepest stack of each call, by painting: a call is made on a stack filled with one byte, and the lowest byte that changed tells how
 * far down it went; what the switch to that stack takes is taken off. The tables are the largest, most seats hold, the script has numbers
 * of the most digits and the lists have a thousand records, so that a call that went deeper with every node, digit or record would be seen.
 * Prints the bytes seen of each call, and fails if the header promises fewer, or if the call took another way. The last line is 'N passed,
 * M failed'. */
#define _XOPEN_SOURCE 700
#include "../include/soodhiqune.h"

#include "calls.h"

#include <stdio.h>
#include <string.h>
#include <ucontext.h>

enum { NODES = SOODHIQUNE_MOST_NODES, SEATS = SOODHIQUNE_MOST_SEATS, HOLDERS = SEATS - 4, RECORDS = 1000 };
enum { STACK_BYTES = 1 << 18, PAINT = 0xa5 };

static unsigned char stack[STACK_BYTES];
static uint32_t nodes[SOODHIQUNE_NODE_WORDS(NODES)], seats[SOODHIQUNE_SEAT_WORDS(SEATS)], rows[SOODHIQUNE_ROW_WORDS(SEATS)];
static uint32_t numbers[SOODHIQUNE_SCRIPT_NUMBERS], shared[SOODHIQUNE_SHARED_WORDS];
static uint8_t printed[SOODHIQUNE_PRINTED_BYTES];
static int64_t locks[SOODHIQUNE_LOCK_WORDS(RECORDS)];
static uint32_t claims[SOODHIQUNE_CLAIM_WORDS(RECORDS)];
static uint64_t covered, given;
static const char script[] = "256 64 1 4294967295\nv 4294967295 4294967295 4294967295 4294967295\n", lines[] = "1 no 2\nlist\ncovered 0\n";
static int passed, failed;

/* the lengths of the set's tables, known before a call is made, so that only the call is measured */
static size_t node_words, seat_words;
#define TABLES nodes, node_words, seats, seat_words

/* document 01's H9, with the seats entering by steps of their own, up to the wait of seat 2, and up to the withdrawal of seat 3: its next
 * step fetches, which goes deepest */
static const uint32_t to_hold_0[] = {0, 0, 0}, to_hold_1[] = {1, 1, 1, 1}, to_wait[] = {2, 3, 3, 3, 2, 2, 3, 2}, step_of_3[] = {3};
static const uint32_t to_withdrawal[] = {2, 3, 3, 3, 2, 2, 3, 2, 2, 3, 3};
/* on a sheet the same claims all write: seat 2 enters, to wait at seat 0; seat 3 enters and passes two, to be linked */
static const uint32_t to_sheet_wait[] = {2}, to_link[] = {3, 3, 3};
#define STEPS(schedule) schedule, sizeof schedule / sizeof schedule[0], UINT32_MAX

static void nothing(void) { }
static void clear(void) { given = on->clear(TABLES, UINT32_MAX); }
static void reserve(void) { given = on->reserve(TABLES, 3, 15, 20, SOODHIQUNE_WRITES); }
static void enter(void) { given = on->enter(TABLES, 3); }
static void step(void) { given = on->step(TABLES, 3, shared); }
static void step_to_wait(void) { given = on->step(TABLES, 2, shared); }
static void run(void) { given = on->run(TABLES, STEPS(step_of_3)); }
static void release(void) { given = on->release(TABLES, 0); }
static void board(void) { given = on->board(TABLES, rows, SOODHIQUNE_ROW_WORDS(SEATS), &covered); }
static void free_count(void) { given = on->free_count(TABLES); }
static void read_script(void) { given = soodhiqune_read((const uint8_t *)script, sizeof script - 1, numbers); }
static void play(void) { given = soodhiqune_play((const uint8_t *)script, sizeof script - 1, printed); }

#define LOCKS locks, SOODHIQUNE_LOCK_WORDS(RECORDS)
#define CLAIMS claims, SOODHIQUNE_CLAIM_WORDS(RECORDS)

/* the refusal, and the place behind it */
static uint64_t told(struct soodhiqune_moved moved)
{
    return (uint64_t)moved.refusal << 32 | moved.place;
}

static void import_locks(void) { given = told(soodhiqune_import(UINT32_MAX, LOCKS, CLAIMS)); }
static void export_claims(void) { given = told(soodhiqune_export(UINT32_MAX, CLAIMS, LOCKS)); }

static size_t painted_over(void (*call)(void))
{
    ucontext_t here, there;
    size_t untouched = 0;
    memset(stack, PAINT, sizeof stack);
    getcontext(&there);
    there.uc_stack.ss_sp = stack;
    there.uc_stack.ss_size = sizeof stack;
    there.uc_link = &here;
    makecontext(&there, call, 0);
    swapcontext(&here, &there);
    while (untouched < sizeof stack && stack[untouched] == PAINT) {
        untouched++;
    }
    return sizeof stack - untouched;
}

/* the seats above 3 hold, one behind the other, and behind what H9 claims */
static void set_up(void)
{
    const uint32_t kind = on == &sheet ? SOODHIQUNE_WRITES : SOODHIQUNE_READS;
    uint32_t seat;
    clear();
    for (seat = SEATS - 1; seat > 3; seat--) {
        const uint32_t to_hold[] = {seat, seat, seat};
        on->reserve(TABLES, seat, 100 + seat, 101 + seat, SOODHIQUNE_WRITES);
        on->run(TABLES, STEPS(to_hold));
    }
    on->reserve(TABLES, 0, 1, 10, kind);
    on->run(TABLES, STEPS(to_hold_0));
    on->reserve(TABLES, 1, 12, 14, kind);
    on->run(TABLES, STEPS(to_hold_1));
    on->reserve(TABLES, 2, 5, 20, kind);
}

static void set_up_reserved(void)
{
    set_up();
    reserve();
}

static void go_on(const uint32_t *schedule, size_t entries, uint32_t budget)
{
    set_up_reserved();
    on->run(TABLES, schedule, entries, budget);
}

static void set_up_wait(void) { go_on(STEPS(to_wait)); }
static void set_up_withdrawal(void) { go_on(STEPS(to_withdrawal)); }
static void set_up_sheet_wait(void) { go_on(STEPS(to_sheet_wait)); }
static void set_up_link(void) { go_on(STEPS(to_link)); }

/* locks of either sign and of length 0, and the claims that they are */
static void set_up_lists(void)
{
    size_t record;
    for (record = 0; record < RECORDS; record++) {
        int64_t *lock = locks + SOODHIQUNE_LOCK_WORDS(record);
        const int64_t frames = (int64_t)(record % 3) - 1;
        lock[SOODHIQUNE_LOCK_TYPE] = SOODHIQUNE_WRITES;
        lock[SOODHIQUNE_LOCK_START] = 4000000000;
        lock[SOODHIQUNE_LOCK_LENGTH] = frames * (int64_t)record;
    }
    import_locks();
}

static void set_up_bad_lock(void)
{
    set_up_lists();
    locks[SOODHIQUNE_LOCK_WORDS(RECORDS - 1) + SOODHIQUNE_LOCK_LENGTH] = INT64_MIN;
}

static void set_up_bad_claim(void)
{
    set_up_lists();
    claims[SOODHIQUNE_CLAIM_WORDS(RECORDS - 1) + SOODHIQUNE_CLAIM_KIND] = 0;
}

static void check(const char *name, void (*prepare)(void), void (*call)(void), uint64_t wanted, size_t promised)
{
    size_t bytes;
    prepare();
    bytes = painted_over(call) - painted_over(nothing);
    printf("%s%s: %lu bytes of stack\n", on->whose, name, (unsigned long)bytes);
    if (given == wanted && bytes <= promised) {
        passed++;
    } else {
        failed++;
        printf("differs: %s%s gave %llx, promised %lu bytes\n", on->whose, name, (unsigned long long)given, (unsigned long)promised);
    }
}

static uint64_t both(uint64_t upper, uint64_t lower)
{
    return upper << 32 | lower;
}

static void check_on_tables(const char *name, void (*prepare)(void), void (*call)(void), uint64_t wanted)
{
    check(name, prepare, call, wanted, SOODHIQUNE_STACK_BYTES);
}

/* what either set has, its tables having claims under way */
static void check_calls(const struct calls *set, void (*under_way)(void))
{
    on = set;
    node_words = on->node_words(NODES);
    seat_words = on->seat_words(SEATS);
    check_on_tables("clear", set_up, clear, SOODHIQUNE_ACCEPTED);
    check_on_tables("reserve", set_up, reserve, both(SOODHIQUNE_NODE, HOLDERS + 4));
    check_on_tables("enter", set_up_reserved, enter, both(SOODHIQUNE_ON, 0));
    check_on_tables("step that enters", set_up_reserved, step, both(SOODHIQUNE_ON, 0));
    check_on_tables("run", under_way, run, both(SOODHIQUNE_ACCEPTED, 1));
    check_on_tables("release", under_way, release, both(SOODHIQUNE_OUT, 0));
    check_on_tables("board", under_way, board, both(1, HOLDERS + 2));
    check_on_tables("free count", under_way, free_count, both(1, NODES - HOLDERS - 4));
}

static void check_lists(void)
{
    check("import", set_up_lists, import_locks, SOODHIQUNE_ACCEPTED, SOODHIQUNE_STACK_BYTES);
    check("import, the last refused", set_up_bad_lock, import_locks, both(SOODHIQUNE_NO_RUN, RECORDS - 1), SOODHIQUNE_STACK_BYTES);
    check("export", set_up_lists, export_claims, SOODHIQUNE_ACCEPTED, SOODHIQUNE_STACK_BYTES);
    check("export, the last refused", set_up_bad_claim, export_claims, both(SOODHIQUNE_NO_SUCH_KIND, RECORDS - 1), SOODHIQUNE_STACK_BYTES);
}

int main(void)
{
    /* the C library's functions are found at their first call, which takes a stack of its own */
    read_script();
    play();
    check_calls(&ordinary, set_up_withdrawal);
    check_on_tables("step that fetches", set_up_withdrawal, step, both(SOODHIQUNE_ON, 0));
    check_on_tables("step that waits", set_up_wait, step_to_wait, both(SOODHIQUNE_WAIT, HOLDERS + 4));
    check_lists();
    check("read", nothing, read_script, SOODHIQUNE_ACCEPTED, SOODHIQUNE_SCRIPT_STACK_BYTES);
    check("play", nothing, play, sizeof lines - 1, SOODHIQUNE_SCRIPT_STACK_BYTES);
    check_calls(&sheet, set_up_link);
    check_on_tables("step that links", set_up_link, step, both(SOODHIQUNE_HELD, 0));
    check_on_tables("step that waits", set_up_sheet_wait, step_to_wait, both(SOODHIQUNE_WAIT, HOLDERS + 1));
    printf("%d passed, %d failed\n", passed, failed);
    return failed != 0;
}
