/* An example for C: two workers burn the subtitles of a title of 240 frames into it. They only write, so that their claims are kept on a
 * writers' sheet. The workers send a message each in turn: to reserve the frames of the next subtitle, to step until they hold them and
 * once more for each second that is burnt in, and to release them. Subtitles that share frames are never burnt in at once. Prints what each
 * message was answered, and with it how many workers hold, and how many frames.
 *
 *     cc sheet.c $(pkg-config --cflags --libs soodhiqune) -o sheet    after ./install --prefix DIR, as for h1.c
 */
#include <inttypes.h>
#include <soodhiqune.h>
#include <stdio.h>

enum { NODES = 4, WORKERS = 2, FRAMES = 240, FRAMES_A_SECOND = 24 };
static uint32_t nodes[SOODHIQUNE_SHEET_NODE_WORDS(NODES)], seats[SOODHIQUNE_SHEET_SEAT_WORDS(WORKERS)];
#define SHEET nodes, SOODHIQUNE_SHEET_NODE_WORDS(NODES), seats, SOODHIQUNE_SHEET_SEAT_WORDS(WORKERS)

/* the frames of each subtitle, from the first up to but not including the second; and how many subtitles were begun */
static const uint32_t subtitles[][2] = {{0, 48}, {36, 96}, {96, 120}};
enum { SUBTITLES = sizeof subtitles / sizeof subtitles[0] };
static uint32_t begun;

/* what each worker was last answered, out as long as it has no subtitle; how many seconds it has yet to burn in; where a step that waits
 * tells it which frames it waits for */
static enum soodhiqune_answer last[WORKERS] = {SOODHIQUNE_OUT, SOODHIQUNE_OUT};
static uint32_t seconds[WORKERS], shared[WORKERS][SOODHIQUNE_SHARED_WORDS];

static uint64_t begin_subtitle(uint32_t worker)
{
    const uint32_t *frames = subtitles[begun++];
    seconds[worker] = (frames[1] - frames[0]) / FRAMES_A_SECOND;
    return soodhiqune_sheet_reserve(SHEET, worker, frames[0], frames[1], SOODHIQUNE_WRITES);
}

static uint64_t answer_message(uint32_t worker)
{
    if (last[worker] == SOODHIQUNE_OUT) {
        return begin_subtitle(worker);
    }
    if (last[worker] == SOODHIQUNE_HELD && seconds[worker]-- == 0) {
        return soodhiqune_sheet_release(SHEET, worker);
    }
    return soodhiqune_sheet_step(SHEET, worker, shared[worker]);
}

static void say(uint32_t worker, uint64_t given)
{
    static const char *const words[] = {"no", "node", "out", "on", "wait", "held"}; /* and never back */
    printf("%" PRIu32 " %s", worker, words[last[worker]]);
    if (last[worker] == SOODHIQUNE_WAIT) {
        printf(" at node %" PRIu32 " for frames %" PRIu32 " up to %" PRIu32, soodhiqune_node_of(given),
               shared[worker][SOODHIQUNE_SHARED_FIRST], shared[worker][SOODHIQUNE_SHARED_END]);
    }
}

static void show_held(void)
{
    uint32_t rows[SOODHIQUNE_ROW_WORDS(WORKERS)];
    uint64_t covered;
    const uint64_t given = soodhiqune_sheet_board(SHEET, rows, SOODHIQUNE_ROW_WORDS(WORKERS), &covered);
    if (soodhiqune_refusal_of(given) == SOODHIQUNE_ACCEPTED) {
        printf(", %" PRIu32 " hold %" PRIu64 " frames", soodhiqune_count_of(given), covered);
    }
    puts("");
}

static int has_message(uint32_t worker)
{
    return last[worker] != SOODHIQUNE_OUT || begun < SUBTITLES;
}

int main(void)
{
    uint32_t worker = 0, other = 1;
    if (soodhiqune_sheet_clear(SHEET, FRAMES) != SOODHIQUNE_ACCEPTED) {
        return 1;
    }
    while (has_message(worker) || has_message(other)) {
        if (has_message(worker)) {
            const uint64_t given = answer_message(worker);
            last[worker] = soodhiqune_answer_of(given);
            say(worker, given);
            show_held();
            if (last[worker] == SOODHIQUNE_REFUSED) {
                return 1;
            }
        }
        worker = other;
        other = 1 - worker;
    }
    return 0;
}
