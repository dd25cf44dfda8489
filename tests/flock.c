/* Claims as the system's own locks: real locks on a real file, taken with fcntl by another process, and told back by the kernel as struct
 * flock. What import reads, what export writes and what tables keep apart is held to what the kernel does with the same numbers: where it
 * lets a lock of a positive, a negative or an open length start and end, which locks it cannot take, and which two it keeps apart. Where
 * /proc/locks shows the lock, its bytes are compared too; where not, a line 'not compared' says so. Prints what differs, and a closing line
 * 'N passed, M failed'. That the temporary folder takes no locks is a failure. */
#define _XOPEN_SOURCE 700
#define _FILE_OFFSET_BITS 64
#include "../include/soodhiqune.h"

#include <errno.h>
#include <fcntl.h>
#include <stdio.h>
#include <string.h>
#include <sys/stat.h>
#include <sys/wait.h>
#include <unistd.h>

enum { TITLE = 1000, CLAIM_WORDS = SOODHIQUNE_CLAIM_WORDS(1), LOCK_WORDS = SOODHIQUNE_LOCK_WORDS(1) };

static int passed, failed, listed, unlisted, file;

static void check(const char *what, const struct flock *lock, int holds)
{
    if (holds) {
        passed++;
    } else {
        failed++;
        printf("differs: %s, l_type %d, l_start %lld, l_len %lld\n", what, lock->l_type, (long long)lock->l_start, (long long)lock->l_len);
    }
}

static struct flock flock_of(int type, int64_t start, int64_t length)
{
    struct flock lock;
    memset(&lock, 0, sizeof lock);
    lock.l_type = (short)type;
    lock.l_whence = SEEK_SET;
    lock.l_start = start;
    lock.l_len = length;
    return lock;
}

static struct soodhiqune_moved import_flock(uint32_t title, const struct flock *lock, uint32_t *claim)
{
    int64_t words[LOCK_WORDS];
    words[SOODHIQUNE_LOCK_TYPE] = SOODHIQUNE_TYPE_OF_FLOCK(lock->l_type);
    words[SOODHIQUNE_LOCK_START] = lock->l_start;
    words[SOODHIQUNE_LOCK_LENGTH] = lock->l_len;
    return soodhiqune_import(title, words, LOCK_WORDS, claim, CLAIM_WORDS);
}

static int imports_as(uint32_t title, const struct flock *lock, uint32_t start, uint32_t end, uint32_t kind)
{
    uint32_t claim[CLAIM_WORDS];
    return import_flock(title, lock, claim).refusal == SOODHIQUNE_ACCEPTED && claim[SOODHIQUNE_CLAIM_START] == start &&
           claim[SOODHIQUNE_CLAIM_END] == end && claim[SOODHIQUNE_CLAIM_KIND] == kind;
}

/* ---- a process that holds a lock until it is let go */

struct holder {
    pid_t process;
    int until; /* it waits for the end of this pipe */
};

/* in the new process: takes the lock, tells how that ended, and waits */
static void hold_until(const struct flock *lock, int tell, int until)
{
    const int result = fcntl(file, F_SETLK, lock) == 0 ? 0 : errno;
    char byte;
    if (write(tell, &result, sizeof result) == (ssize_t)sizeof result) {
        while (read(until, &byte, 1) < 0 && errno == EINTR) {
        }
    }
    _exit(0);
}

/* 0, or why the kernel did not give the lock; -1 if there is no such process */
static int hold(const struct flock *lock, struct holder *holder)
{
    int told[2], until[2], result = -1;
    holder->until = -1;
    if (pipe(told) != 0 || pipe(until) != 0 || (holder->process = fork()) < 0) {
        return -1;
    }
    if (holder->process == 0) {
        close(until[1]);
        hold_until(lock, told[1], until[0]);
    }
    close(told[1]);
    close(until[0]);
    holder->until = until[1];
    if (read(told[0], &result, sizeof result) != (ssize_t)sizeof result) {
        result = -1;
    }
    close(told[0]);
    return result;
}

static void let_go(const struct holder *holder)
{
    if (holder->until >= 0) {
        close(holder->until);
        waitpid(holder->process, NULL, 0);
    }
}

/* ---- what the kernel tells of it */

/* the lock that keeps a writer of the whole file out */
static int gets_lock(const struct holder *holder, struct flock *seen)
{
    *seen = flock_of(F_WRLCK, 0, 0);
    return fcntl(file, F_GETLK, seen) == 0 && seen->l_type != F_UNLCK && seen->l_whence == SEEK_SET && seen->l_pid == holder->process;
}

/* a line of /proc/locks: the process, the file's number, READ or WRITE, the first byte, and the last or EOF */
struct line {
    long process;
    unsigned long long inode;
    char kind[8], first[24], last[24];
};

static int reads_line(FILE *lines, struct line *line)
{
    char text[256];
    while (fgets(text, sizeof text, lines) != NULL) {
        if (sscanf(text, "%*d: POSIX ADVISORY %7s %ld %*x:%*x:%llu %23s %23s", line->kind, &line->process, &line->inode, line->first,
                   line->last) == 5) {
            return 1;
        }
    }
    return 0;
}

/* whether the line of the holder's lock says so; 1 too if there is none */
static int lists_lock(const struct holder *holder, const struct flock *lock, uint32_t start, uint32_t end)
{
    FILE *lines = fopen("/proc/locks", "r");
    struct stat status;
    struct line line;
    char first[24], last[24];
    int found = 0, right = 0;
    snprintf(first, sizeof first, "%lu", (unsigned long)start);
    snprintf(last, sizeof last, "%lu", (unsigned long)end - 1);
    if (lines != NULL && fstat(file, &status) == 0) {
        while (!found && reads_line(lines, &line)) {
            found = line.process == (long)holder->process && line.inode == (unsigned long long)status.st_ino;
        }
        right = found && strcmp(line.kind, lock->l_type == F_RDLCK ? "READ" : "WRITE") == 0 && strcmp(line.first, first) == 0 &&
                strcmp(line.last, lock->l_len == 0 ? "EOF" : last) == 0;
    }
    if (lines != NULL) {
        fclose(lines);
    }
    listed += found;
    unlisted += !found;
    return right || !found;
}

/* ---- locks that are read */

/* a lock of either type that covers these frames; an open one ends where the title does */
static void check_read(uint32_t title, int64_t start, int64_t length, uint32_t first, uint32_t end)
{
    static const int types[] = {F_RDLCK, F_WRLCK};
    size_t place;
    for (place = 0; place < sizeof types / sizeof types[0]; place++) {
        const struct flock lock = flock_of(types[place], start, length);
        const uint32_t kind = types[place] == F_RDLCK ? SOODHIQUNE_READS : SOODHIQUNE_WRITES;
        struct holder holder;
        struct flock seen = lock;
        check("imported", &lock, imports_as(title, &lock, first, end, kind));
        check("taken by another process", &lock, hold(&lock, &holder) == 0);
        check("told by the kernel", &lock, gets_lock(&holder, &seen));
        check("told with this start", &seen, seen.l_start == (off_t)first);
        check("told with this length", &seen, seen.l_len == (length == 0 ? 0 : (off_t)end - (off_t)first));
        check("imported as the kernel tells it", &seen, imports_as(title, &seen, first, end, kind));
        check("listed in /proc/locks", &lock, lists_lock(&holder, &lock, first, end));
        let_go(&holder);
    }
}

/* a lock that the kernel cannot take either */
static void check_no_run(int64_t start, int64_t length, int reason)
{
    const struct flock lock = flock_of(F_WRLCK, start, length);
    uint32_t claim[CLAIM_WORDS] = {7, 7, 7};
    const struct soodhiqune_moved moved = import_flock(TITLE, &lock, claim);
    struct holder holder;
    check("not taken by the kernel", &lock, hold(&lock, &holder) == reason);
    let_go(&holder);
    check("refused as no run", &lock, moved.refusal == SOODHIQUNE_NO_RUN && moved.place == 0);
    check("nothing stored", &lock, claim[0] == 7 && claim[1] == 7 && claim[2] == 7);
}

static void check_no_lock(void)
{
    const struct flock lock = flock_of(F_UNLCK, 10, 5);
    uint32_t claim[CLAIM_WORDS];
    check("what is no lock has no type", &lock, import_flock(TITLE, &lock, claim).refusal == SOODHIQUNE_NO_SUCH_TYPE);
}

/* ---- claims that are written */

/* the kernel takes what export gives, and tells it as it was given: positive lengths, and 0 where there is no end */
static void check_written(uint32_t title, uint32_t start, uint32_t end, uint32_t kind)
{
    uint32_t claim[CLAIM_WORDS];
    int64_t words[LOCK_WORDS] = {0};
    struct holder holder;
    struct flock lock, seen;
    int exported;
    claim[SOODHIQUNE_CLAIM_START] = start;
    claim[SOODHIQUNE_CLAIM_END] = end;
    claim[SOODHIQUNE_CLAIM_KIND] = kind;
    exported = soodhiqune_export(title, claim, CLAIM_WORDS, words, LOCK_WORDS).refusal == SOODHIQUNE_ACCEPTED;
    lock = flock_of(SOODHIQUNE_FLOCK_OF_TYPE(words[SOODHIQUNE_LOCK_TYPE]), words[SOODHIQUNE_LOCK_START], words[SOODHIQUNE_LOCK_LENGTH]);
    seen = lock;
    check("exported", &lock, exported && lock.l_type == (kind == SOODHIQUNE_READS ? F_RDLCK : F_WRLCK));
    check("the exported lock is taken", &lock, hold(&lock, &holder) == 0);
    check("the exported lock is told", &seen, gets_lock(&holder, &seen) && seen.l_type == lock.l_type && seen.l_start == lock.l_start &&
          seen.l_len == lock.l_len);
    check("0 exactly where the title ends", &seen, (seen.l_len == 0) == (end == title));
    check("imported again", &seen, imports_as(title, &seen, start, end, kind));
    check("the exported lock is listed", &lock, lists_lock(&holder, &lock, start, end));
    let_go(&holder);
}

/* ---- which locks are kept apart */

#define TWO nodes, SOODHIQUNE_NODE_WORDS(2), seats, SOODHIQUNE_SEAT_WORDS(2)

/* a claim that comes to hold, or to wait */
static enum soodhiqune_answer stepped_on(uint32_t *nodes, uint32_t *seats, uint32_t seat, const uint32_t *claim)
{
    uint32_t shared[SOODHIQUNE_SHARED_WORDS];
    uint64_t given = soodhiqune_reserve(TWO, seat, claim[SOODHIQUNE_CLAIM_START], claim[SOODHIQUNE_CLAIM_END],
                                        claim[SOODHIQUNE_CLAIM_KIND]);
    if (soodhiqune_answer_of(given) == SOODHIQUNE_NODE) {
        given = soodhiqune_enter(TWO, seat);
    }
    while (soodhiqune_answer_of(given) == SOODHIQUNE_ON) {
        given = soodhiqune_step(TWO, seat, shared);
    }
    return soodhiqune_answer_of(given);
}

/* whether the second of two claims waits for the first */
static int waits(const uint32_t *first, const uint32_t *second)
{
    uint32_t nodes[SOODHIQUNE_NODE_WORDS(2)], seats[SOODHIQUNE_SEAT_WORDS(2)];
    soodhiqune_clear(TWO, TITLE);
    return stepped_on(nodes, seats, 0, first) == SOODHIQUNE_HELD && stepped_on(nodes, seats, 1, second) == SOODHIQUNE_WAIT;
}

/* whether two claims share a frame and one of them writes */
static int clash(const uint32_t *first, const uint32_t *second)
{
    return first[SOODHIQUNE_CLAIM_START] < second[SOODHIQUNE_CLAIM_END] && second[SOODHIQUNE_CLAIM_START] < first[SOODHIQUNE_CLAIM_END] &&
           (first[SOODHIQUNE_CLAIM_KIND] == SOODHIQUNE_WRITES || second[SOODHIQUNE_CLAIM_KIND] == SOODHIQUNE_WRITES);
}

/* whether the kernel keeps this process from the lock that another holds; what it does give is given back */
static int kept_out(const struct flock *lock)
{
    const struct flock all = flock_of(F_UNLCK, 0, 0);
    const int out = fcntl(file, F_SETLK, lock) != 0;
    const int right = !out || errno == EAGAIN || errno == EACCES;
    return fcntl(file, F_SETLK, &all) == 0 && right ? out : -1;
}

static const int64_t runs[][2] = {
    {0, 1}, {0, 10}, {10, 20}, {30, -20}, {29, 1}, {30, -1}, {30, 0}, {31, 0}, {0, 0}, {999, 1}, {1000, -1}, {1000, -1000}, {10, -10}
};
enum { RUNS = sizeof runs / sizeof runs[0], PAIRED = 2 * RUNS };

static struct flock paired(size_t place)
{
    return flock_of(place < RUNS ? F_RDLCK : F_WRLCK, runs[place % RUNS][0], runs[place % RUNS][1]);
}

/* the kernel keeps out exactly those whose claims clash, and these are the ones that wait in the tables */
static int keeps_apart(const struct flock *held, size_t *clashes)
{
    uint32_t first[CLAIM_WORDS], second[CLAIM_WORDS];
    size_t place;
    for (place = 0; place < PAIRED; place++) {
        const struct flock other = paired(place);
        int apart;
        if (import_flock(TITLE, held, first).refusal != SOODHIQUNE_ACCEPTED ||
            import_flock(TITLE, &other, second).refusal != SOODHIQUNE_ACCEPTED) {
            return 0;
        }
        apart = kept_out(&other);
        *clashes += apart == 1;
        if (apart != clash(first, second) || apart != waits(first, second)) {
            printf("differs beside l_type %d, l_start %lld, l_len %lld\n", other.l_type, (long long)other.l_start, (long long)other.l_len);
            return 0;
        }
    }
    return 1;
}

static void check_apart(void)
{
    size_t place, clashes = 0;
    for (place = 0; place < PAIRED; place++) {
        const struct flock held = paired(place);
        struct holder holder;
        check("held beside others", &held, hold(&held, &holder) == 0);
        check("kept apart as their claims are", &held, keeps_apart(&held, &clashes));
        let_go(&holder);
    }
    printf("%d pairs of locks, %lu of them kept apart\n", PAIRED * PAIRED, (unsigned long)clashes);
}

static int locks_are_taken(void)
{
    const struct flock lock = flock_of(F_WRLCK, 0, 1);
    FILE *made = tmpfile();
    struct holder holder;
    int reason;
    if (made == NULL) {
        printf("there is no temporary file: %s\n", strerror(errno));
        return 0;
    }
    file = fileno(made);
    reason = hold(&lock, &holder);
    if (reason != 0) {
        printf("a file in the temporary folder cannot be locked with fcntl: %s\n", reason > 0 ? strerror(reason) : "no process to hold it");
        return 0;
    }
    let_go(&holder);
    return 1;
}

int main(void)
{
    const int64_t last = UINT32_MAX;
    if (!locks_are_taken()) {
        printf("0 passed, 1 failed\n");
        return 1;
    }
    check_read(TITLE, 10, 20, 10, 30);
    check_read(TITLE, 0, 1, 0, 1);
    check_read(TITLE, 999, 1, 999, 1000);
    check_read(TITLE, 30, -20, 10, 30);
    check_read(TITLE, 1, -1, 0, 1);
    check_read(TITLE, 1000, -1000, 0, 1000);
    check_read(TITLE, 5, 0, 5, 1000);
    check_read(TITLE, 0, 0, 0, 1000);
    check_read(TITLE, 999, 0, 999, 1000);
    check_read(UINT32_MAX, last - 1, 1, UINT32_MAX - 1, UINT32_MAX);
    check_read(UINT32_MAX, last, -1, UINT32_MAX - 1, UINT32_MAX);
    check_read(UINT32_MAX, last, -last, 0, UINT32_MAX);
    check_read(UINT32_MAX, 2147483648, 0, 2147483648U, UINT32_MAX);
    check_no_run(-1, 5, EINVAL);
    check_no_run(-1, 0, EINVAL);
    check_no_run(5, -6, EINVAL);
    check_no_run(0, INT64_MIN, EINVAL);
    check_no_run(INT64_MAX, INT64_MIN, EINVAL);
    check_no_run(INT64_MIN, INT64_MIN, EINVAL);
    check_no_run(INT64_MAX, 2, EOVERFLOW);
    check_no_run(INT64_MAX, INT64_MAX, EOVERFLOW);
    check_no_lock();
    check_written(TITLE, 10, 30, SOODHIQUNE_READS);
    check_written(TITLE, 0, 1, SOODHIQUNE_WRITES);
    check_written(TITLE, 0, 999, SOODHIQUNE_WRITES);
    check_written(TITLE, 0, 1000, SOODHIQUNE_READS);
    check_written(TITLE, 999, 1000, SOODHIQUNE_WRITES);
    check_written(UINT32_MAX, 0, UINT32_MAX, SOODHIQUNE_WRITES);
    check_written(UINT32_MAX, 4000000000U, UINT32_MAX - 1, SOODHIQUNE_READS);
    check_apart();
    if (unlisted > 0) {
        printf("not compared: /proc/locks, which shows %d of %d locks here; F_GETLK alone decides\n", listed, listed + unlisted);
    }
    printf("%d passed, %d failed\n", passed, failed);
    return failed != 0;
}
