/* The claims that keep scoring workers apart on a shared sheet: the public calls of the proved library, for C (C99 and later) and C++.
 *
 * `./install --prefix DIR` puts this header, the archive libsoodhiqune.a (x86-64 Linux) and soodhiqune.pc for pkg-config in place. Every
 * call takes any tables and any numbers and ends; a refused call changes nothing that it was lent. A table is lent as its address and
 * its number of 32-bit words:
 *   nodes   the head word, how many readers hold and how many writers, the title's frame count, then N nodes of five words: start, end,
 *           kind, next, mark (N is 1 to 256)
 *   seats   S seats of four words: phase, own, prev, cur (S is 1 to 64)
 * Where all claims write, such a pair may be a writers' sheet instead: it has calls of its own, soodhiqune_sheet_clear and so on, at the
 * end, where it is said what differs.
 * Claims may be kept elsewhere as POSIX advisory record locks: import makes claims of a list of locks, export locks of a list of claims.
 *
 * What is asked of the caller:
 *   addresses   of so many words or bytes, aligned as their type asks; no two of a call overlap. NULL will do where the length is 0, but
 *               not for shared, covered, numbers and printed, whose lengths are always the same
 *   threads     one call at a time on a pair of tables, save that board and free count only read. Nothing is kept between calls, so
 *               calls on different tables, or on different lists, may be made at once
 *   stack       SOODHIQUNE_STACK_BYTES, and SOODHIQUNE_SCRIPT_STACK_BYTES for read and play, whatever is lent
 * The library calls nothing but memset and memcpy.
 *
 * For tables that are mirrored on every store: a refused call, board and free count store nothing there, not even what stands there
 * already; a claim that finds no node free takes those of released and withdrawn claims off the list by storing the links that differ and
 * no others; reserve and enter store two words of their seat each, and enter none of a node. tests/stores watches the archive for it. */
#ifndef SOODHIQUNE_H
#define SOODHIQUNE_H

#include <stddef.h>
#include <stdint.h>

#ifdef __cplusplus
extern "C" {
#endif

/* ---- sizes, in words unless they say bytes */

#define SOODHIQUNE_MOST_NODES 256
#define SOODHIQUNE_MOST_SEATS 64
#define SOODHIQUNE_NODE_WORDS(nodes) (SOODHIQUNE_BEFORE_NODES + 5 * (size_t)(nodes))
#define SOODHIQUNE_SEAT_WORDS(seats) (4 * (size_t)(seats))
#define SOODHIQUNE_SHEET_NODE_WORDS(nodes) (SOODHIQUNE_SHEET_BEFORE_NODES + 5 * (size_t)(nodes))
#define SOODHIQUNE_SHEET_SEAT_WORDS(seats) (4 * (size_t)(seats))
#define SOODHIQUNE_ROW_WORDS(rows) (4 * (size_t)(rows))
#define SOODHIQUNE_LOCK_WORDS(locks) (3 * (size_t)(locks))
#define SOODHIQUNE_CLAIM_WORDS(claims) (3 * (size_t)(claims))

#define SOODHIQUNE_MOST_SCRIPT_BYTES 16384
#define SOODHIQUNE_MOST_SCRIPT_ROWS 1000
#define SOODHIQUNE_SCRIPT_NUMBERS SOODHIQUNE_SCRIPT_ROW(SOODHIQUNE_MOST_SCRIPT_ROWS)
#define SOODHIQUNE_PRINTED_BYTES 49152

/* Room for the deepest stack seen, arguments and return address included: reserve 432 bytes, step 512, run 608, board 1,272, on a writers'
 * sheet as many or fewer, every other call on tables or lists fewer; read 80,704 and play 87,024. tests/stack.c paints a stack, makes the
 * calls on it, and fails if one needs more than is said here. The first use of memset or memcpy in a program may take more, while the C
 * library finds it. */
#define SOODHIQUNE_STACK_BYTES 2048
#define SOODHIQUNE_SCRIPT_STACK_BYTES 98304

/* ---- words of the node table before node 1. After every call that was not refused as damaged, nodes[SOODHIQUNE_HOLDING_READERS] is how
 * many readers hold, and nodes[SOODHIQUNE_HOLDING_WRITERS] how many writers: to be read between calls, by a display after each message
 * say; no call is needed, and nothing is walked. The calls keep them: a table with another number there is damaged.
 * nodes[SOODHIQUNE_TITLE] is how many frames the title has, as clear was told, for a planner to divide covered frames by: only clear
 * writes it, and a table with 0 there, or with less than the end of any node, listed or not, is damaged. */

enum soodhiqune_before_nodes {
    SOODHIQUNE_HEAD,            /* the first node on the list, or 0 */
    SOODHIQUNE_HOLDING_READERS,
    SOODHIQUNE_HOLDING_WRITERS,
    SOODHIQUNE_TITLE,           /* the title's frame count, from 1: a claim may end at it and not beyond */
    SOODHIQUNE_BEFORE_NODES,    /* so many words stand before node 1 */
    SOODHIQUNE_SHEET_BEFORE_NODES = SOODHIQUNE_BEFORE_NODES /* and before node 1 of a writers' sheet */
};

/* ---- the two words in which a step that answers wait tells what it waits for: the frames from shared[SOODHIQUNE_SHARED_FIRST] up to but
 * not including shared[SOODHIQUNE_SHARED_END] are all those that both claims cover, the one that waits and the one that it waits at. In
 * tables that clear made and only these calls have changed there is at least one; in other sound tables there may be none, and both words
 * are 0. */

enum soodhiqune_shared { SOODHIQUNE_SHARED_FIRST, SOODHIQUNE_SHARED_END, SOODHIQUNE_SHARED_WORDS };

/* ---- words of a board's row r: rows[SOODHIQUNE_ROW_WORDS(r) + SOODHIQUNE_ROW_KIND] and the like */

enum soodhiqune_row { SOODHIQUNE_ROW_SEAT, SOODHIQUNE_ROW_START, SOODHIQUNE_ROW_END, SOODHIQUNE_ROW_KIND };

/* ---- words of a lock, which are signed and of 64 bits, and of a claim, of 32 bits, in the lists of import and export:
 * locks[SOODHIQUNE_LOCK_WORDS(r) + SOODHIQUNE_LOCK_START], claims[SOODHIQUNE_CLAIM_WORDS(r) + SOODHIQUNE_CLAIM_END] and the like */

enum soodhiqune_lock {
    SOODHIQUNE_LOCK_TYPE,  /* SOODHIQUNE_READS or SOODHIQUNE_WRITES */
    SOODHIQUNE_LOCK_START,
    SOODHIQUNE_LOCK_LENGTH /* positive from start on, negative before start, 0 from start to the title's end */
};
enum soodhiqune_claim { SOODHIQUNE_CLAIM_START, SOODHIQUNE_CLAIM_END, SOODHIQUNE_CLAIM_KIND };

/* ---- a lock as fcntl takes and gives it: a byte of the lock file stands for a frame, l_start and l_len are start and length, and l_whence
 * must be SEEK_SET. l_type is not the type: on Linux F_RDLCK is 0, F_WRLCK is 1, and F_UNLCK is 2. These turn the one into the other, in a
 * file that includes <fcntl.h>. F_UNLCK, which is no lock, and whatever else is unknown becomes 0, which import refuses; a type that is not
 * 1 or 2 becomes -1, which fcntl refuses. A list of struct flock is not taken as it lies there, since its layout differs between systems. */

#define SOODHIQUNE_TYPE_OF_FLOCK(l_type) \
    ((l_type) == F_RDLCK ? (int64_t)SOODHIQUNE_READS : (l_type) == F_WRLCK ? (int64_t)SOODHIQUNE_WRITES : 0)
#define SOODHIQUNE_FLOCK_OF_TYPE(type) ((type) == SOODHIQUNE_READS ? F_RDLCK : (type) == SOODHIQUNE_WRITES ? F_WRLCK : -1)

/* ---- numbers of a script: numbers[SOODHIQUNE_SCRIPT_SEATS], numbers[SOODHIQUNE_SCRIPT_ROW(r) + SOODHIQUNE_LINE_SEAT] and the like */

enum soodhiqune_script {
    SOODHIQUNE_SCRIPT_NODES,
    SOODHIQUNE_SCRIPT_SEATS,
    SOODHIQUNE_SCRIPT_COUNT, /* so many lines follow the first */
    SOODHIQUNE_SCRIPT_TITLE, /* the title's frame count */
    SOODHIQUNE_SCRIPT_ROWS
};
enum soodhiqune_line {
    SOODHIQUNE_LINE_CODE,
    SOODHIQUNE_LINE_SEAT,
    SOODHIQUNE_LINE_START,
    SOODHIQUNE_LINE_END,
    SOODHIQUNE_LINE_KIND,
    SOODHIQUNE_LINE_NUMBERS
};
enum soodhiqune_code { SOODHIQUNE_NO_LINE, SOODHIQUNE_RESERVE, SOODHIQUNE_STEP, SOODHIQUNE_RELEASE, SOODHIQUNE_ENTER };
#define SOODHIQUNE_SCRIPT_ROW(row) (SOODHIQUNE_SCRIPT_ROWS + SOODHIQUNE_LINE_NUMBERS * (size_t)(row))

/* ---- a claim reads its frames, and may share them with others that read, or writes them, and shares none */

enum soodhiqune_kind { SOODHIQUNE_READS = 1, SOODHIQUNE_WRITES = 2 };

/* ---- what a call on tables or on a script gives back is one number, with two numbers of 32 bits in it: these take it apart */

static inline uint32_t soodhiqune_upper(uint64_t given)
{
    return (uint32_t)(given >> 32);
}

static inline uint32_t soodhiqune_lower(uint64_t given)
{
    return (uint32_t)given;
}

enum soodhiqune_answer {
    SOODHIQUNE_REFUSED, /* nothing changed; the number is that of the refusal */
    SOODHIQUNE_NODE,    /* the claim has this node; enter it, or step it */
    SOODHIQUNE_OUT,     /* it is released */
    SOODHIQUNE_ON,      /* it moved on; step it again */
    SOODHIQUNE_WAIT,    /* it waits at this node, whose claim shares the frames told; step it again once that is released or withdrawn */
    SOODHIQUNE_HELD,    /* it holds; the worker may write */
    SOODHIQUNE_BACK     /* it was withdrawn, since a reader was there first; step it again, and it takes a node anew, to enter with */
};

/* the numbers are not the order in which a call looks for them: beyond title is looked for between empty claim and no such kind, and by
 * import after no run and no such type */
enum soodhiqune_refusal {
    SOODHIQUNE_ACCEPTED,
    SOODHIQUNE_DAMAGED,         /* tables damaged (for clear: only lengths wrong) */
    SOODHIQUNE_NO_SUCH_SEAT,    /* seat number not below S */
    SOODHIQUNE_EMPTY_CLAIM,     /* reserve, export: start not below end */
    SOODHIQUNE_EMPTY_TITLE = SOODHIQUNE_EMPTY_CLAIM, /* clear, import, export: a title of no frames. 3 too, under the name that fits */
    SOODHIQUNE_NO_SUCH_KIND,    /* kind not 1 or 2; on a writers' sheet, not 2 */
    SOODHIQUNE_SEAT_HAS_CLAIM,  /* reserve wants an idle seat */
    SOODHIQUNE_SEAT_IDLE,       /* step wants a seat with a claim */
    SOODHIQUNE_NOT_HOLDING,     /* release wants a seat that holds */
    SOODHIQUNE_NO_NODE_FREE,    /* reserve, or a step that takes a node anew; on a writers' sheet, reserve alone */
    SOODHIQUNE_BOARD_TOO_SHORT, /* fewer rows than holders */
    SOODHIQUNE_LIST_TOO_SHORT = SOODHIQUNE_BOARD_TOO_SHORT, /* import, export: room for fewer records than there are. 9 too */
    SOODHIQUNE_BAD_SCRIPT,      /* script not well formed */
    SOODHIQUNE_BEYOND_TITLE,    /* reserve, import, export: end beyond the title */
    SOODHIQUNE_NO_RUN,          /* import: the run starts below 0, is empty, or its end is past 4,294,967,295 */
    SOODHIQUNE_NO_SUCH_TYPE,    /* import: type not 1 or 2 */
    SOODHIQUNE_NOT_RESERVED     /* enter wants a seat that has reserved a node and not entered */
};

/* of reserve, enter, step and release: which answer, and its node, if it has one */
static inline enum soodhiqune_answer soodhiqune_answer_of(uint64_t given)
{
    return (enum soodhiqune_answer)soodhiqune_upper(given);
}

static inline uint32_t soodhiqune_node_of(uint64_t given)
{
    return soodhiqune_lower(given);
}

/* of every call on tables but run: the refusal, or SOODHIQUNE_ACCEPTED */
static inline enum soodhiqune_refusal soodhiqune_refusal_of(uint64_t given)
{
    return soodhiqune_upper(given) == 0 ? (enum soodhiqune_refusal)soodhiqune_lower(given) : SOODHIQUNE_ACCEPTED;
}

/* of board and free count, if accepted: how many */
static inline uint32_t soodhiqune_count_of(uint64_t given)
{
    return soodhiqune_lower(given);
}

/* of run: the steps accepted, and the refusal met, or SOODHIQUNE_ACCEPTED */
static inline uint32_t soodhiqune_run_steps(uint64_t given)
{
    return soodhiqune_lower(given);
}

static inline enum soodhiqune_refusal soodhiqune_run_refusal(uint64_t given)
{
    return (enum soodhiqune_refusal)soodhiqune_upper(given);
}

/* of read: SOODHIQUNE_ACCEPTED or SOODHIQUNE_BAD_SCRIPT, and then the first wrong line from 1, or 0 if the script is too long */
static inline enum soodhiqune_refusal soodhiqune_read_refusal(uint64_t given)
{
    return (enum soodhiqune_refusal)soodhiqune_upper(given);
}

static inline uint32_t soodhiqune_wrong_line(uint64_t given)
{
    return soodhiqune_lower(given);
}

/* ---- what import and export give back: the refusal, or SOODHIQUNE_ACCEPTED, and the place of the record that is refused, from 0. A
 * title of no frames and a list too short belong to no record, and their place is 0, as it is when the call is accepted. It comes back by
 * value, so that a refused call writes nothing at all. */

struct soodhiqune_moved {
    uint32_t refusal;
    size_t place;
};

/* ---- the calls */

/* Writes 0 everywhere but where the title's frame count stands: that becomes title, 1 to 4,294,967,295. Refused: damaged, then empty
 * title, which is 3, if title is 0. */
uint64_t soodhiqune_clear(uint32_t *nodes, size_t node_words, uint32_t *seats, size_t seat_words, uint32_t title);

/* Takes a node for a claim of the frames from start up to but not including end: a worker that connects has its node from then on, though
 * it comes in later. Answers: node. Refused: damaged, no such seat, empty claim, beyond title, no such kind, seat has claim, no node free;
 * the first that holds, in this order, which is not that of the numbers. */
uint64_t soodhiqune_reserve(uint32_t *nodes, size_t node_words, uint32_t *seats, size_t seat_words,
                            uint32_t seat, uint32_t start, uint32_t end, uint32_t kind);

/* Lets a seat that has reserved a node come in, before the first claim on the list as it is now. Answers: on. The nodes are only read.
 * Refused: damaged, no such seat, not reserved. */
uint64_t soodhiqune_enter(const uint32_t *nodes, size_t node_words, uint32_t *seats, size_t seat_words, uint32_t seat);

/* One step of a seat; if it has reserved a node, it enters. Answers: on, wait, held, back. Every wait, the first and each that follows,
 * stores the frames that both claims cover into the SOODHIQUNE_SHARED_WORDS words at shared; with any other answer they are as found.
 * Refused: damaged, no such seat, seat idle, no node free; they are then as found too. */
uint64_t soodhiqune_step(uint32_t *nodes, size_t node_words, uint32_t *seats, size_t seat_words, uint32_t seat, uint32_t *shared);

/* Ends the claim of a seat that holds. Answers: out. Refused: damaged, no such seat, not holding. */
uint64_t soodhiqune_release(uint32_t *nodes, size_t node_words, uint32_t *seats, size_t seat_words, uint32_t seat);

/* Steps the seats of a schedule in order, at most budget steps, up to the first that is refused. */
uint64_t soodhiqune_run(uint32_t *nodes, size_t node_words, uint32_t *seats, size_t seat_words,
                        const uint32_t *schedule, size_t entries, uint32_t budget);

/* A row for each holder, by rising seat; rows past the count stay. *covered becomes the number of frames that at least one of them covers,
 * at most the title's frame count. Refused: damaged, board too short; *covered is then as found. */
uint64_t soodhiqune_board(const uint32_t *nodes, size_t node_words, const uint32_t *seats, size_t seat_words,
                          uint32_t *rows, size_t row_words, uint64_t *covered);

/* How many nodes are free. Refused: damaged. */
uint64_t soodhiqune_free_count(const uint32_t *nodes, size_t node_words, const uint32_t *seats, size_t seat_words);

/* The numbers of a script, into SOODHIQUNE_SCRIPT_NUMBERS words, 0 where the script has none. Refused: bad script; the words are then as
 * found. */
uint64_t soodhiqune_read(const uint8_t *script, size_t bytes, uint32_t *numbers);

/* What the program prints for a script, into SOODHIQUNE_PRINTED_BYTES bytes; gives the number of bytes, at most 48,986. The others stay. */
uint64_t soodhiqune_play(const uint8_t *script, size_t bytes, uint8_t *printed);

/* The claims of a list of locks, for reserve on tables of this title: a positive length covers start up to but not including start +
 * length, a negative one start + length up to but not including start, and 0 start up to the title's end; sums are exact for all numbers.
 * There are lock_words / 3 locks, and a rest of one or two words is none; words of claims behind as many claims stay. Refused: empty title;
 * then the first bad lock, no run before no such type before beyond title, whether or not there is room for it; then list too short. Then
 * nothing is stored. */
struct soodhiqune_moved soodhiqune_import(uint32_t title, const int64_t *locks, size_t lock_words, uint32_t *claims, size_t claim_words);

/* The locks of a list of claims: lengths are positive, and 0 exactly where the claim ends at the title's end. What it gives, import turns
 * into the same claims again. Lengths of lists as above. Refused: empty title; then the first bad claim, empty claim before beyond title
 * before no such kind; then list too short. */
struct soodhiqune_moved soodhiqune_export(uint32_t title, const uint32_t *claims, size_t claim_words, int64_t *locks, size_t lock_words);

/* ---- the calls on a writers' sheet, such as one on which subtitles are burnt in: those above, with the same arguments, answers and
 * refusals, but for this.
 *   kinds    every claim writes: reserve refuses SOODHIQUNE_READS as no such kind (4), and nodes[SOODHIQUNE_HOLDING_READERS] stays 0
 *   steps    a claim holds as soon as it is linked, and the step that links it answers held. None is withdrawn: no step answers back, and
 *            none is refused for want of a node (8)
 *   damage   a seat is idle, has reserved, walks the list, waits or holds (phases 0, 7, 1, 2 and 5); with phase 3, 4 or 6, or with a node
 *            of kind 1, listed or not, a sheet is damaged
 * A pair of tables belongs to the set of calls that cleared it, and its lengths come from that set: those of a sheet are
 * SOODHIQUNE_SHEET_NODE_WORDS and SOODHIQUNE_SHEET_SEAT_WORDS, and a program should not take the others for them. No word in a table says
 * whose it is. Lent to the other set it is refused only if it is damaged there, as ordinary tables with a reader or with phase 3, 4 or 6
 * are on a sheet's calls; else it is taken, and that claims stay apart is then not promised. Clear it first. */

/* Refused: damaged, empty title. */
uint64_t soodhiqune_sheet_clear(uint32_t *nodes, size_t node_words, uint32_t *seats, size_t seat_words, uint32_t title);

/* Answers: node. Refused: damaged, no such seat, empty claim, beyond title, no such kind, seat has claim, no node free. */
uint64_t soodhiqune_sheet_reserve(uint32_t *nodes, size_t node_words, uint32_t *seats, size_t seat_words,
                                  uint32_t seat, uint32_t start, uint32_t end, uint32_t kind);

/* Answers: on. Refused: damaged, no such seat, not reserved. */
uint64_t soodhiqune_sheet_enter(const uint32_t *nodes, size_t node_words, uint32_t *seats, size_t seat_words, uint32_t seat);

/* Answers: on, wait, held. Refused: damaged, no such seat, seat idle. */
uint64_t soodhiqune_sheet_step(uint32_t *nodes, size_t node_words, uint32_t *seats, size_t seat_words, uint32_t seat, uint32_t *shared);

/* Answers: out. Refused: damaged, no such seat, not holding. */
uint64_t soodhiqune_sheet_release(uint32_t *nodes, size_t node_words, uint32_t *seats, size_t seat_words, uint32_t seat);

/* Stops at what step refuses. */
uint64_t soodhiqune_sheet_run(uint32_t *nodes, size_t node_words, uint32_t *seats, size_t seat_words,
                              const uint32_t *schedule, size_t entries, uint32_t budget);

/* Every row's kind is SOODHIQUNE_WRITES. Refused: damaged, board too short. */
uint64_t soodhiqune_sheet_board(const uint32_t *nodes, size_t node_words, const uint32_t *seats, size_t seat_words,
                                uint32_t *rows, size_t row_words, uint64_t *covered);

/* Refused: damaged. */
uint64_t soodhiqune_sheet_free_count(const uint32_t *nodes, size_t node_words, const uint32_t *seats, size_t seat_words);

#ifdef __cplusplus
}
#endif

#endif
