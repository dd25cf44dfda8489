/* Turns a list of POSIX record locks into the reserve lines of a script, and such lines into locks: what ./locks runs, and an example for C
 * of import and export. `locks import TITLE` and `locks export TITLE` read standard input; ./locks --help says what lines they take and
 * what their exit status means. A list is read whole before anything is printed, so that a bad or refused one prints nothing. */
#include <inttypes.h>
#include <soodhiqune.h>
#include <stdio.h>
#include <stdlib.h>
#include <string.h>

enum { BAD = 1, MISUSED = 2, UNREAD = 3, UNWRITTEN = 4, REFUSED = 6 };

/* longer than any line that is well formed */
enum { LINE_BYTES = 80 };

/* the records that were read, and room for what they become; a record has three words on either side */
static int64_t *locks;
static uint32_t *claims;
static size_t records, room;

/* A number between these bounds with this byte behind it, written as it would be printed: no other sign, no leading zero, no space.
 * The text moves behind that byte. */
static int reads_number(const char **text, int64_t least, int64_t most, char behind, int64_t *number)
{
    char *end, printed[LINE_BYTES];
    int length;
    *number = strtoll(*text, &end, 10);
    length = snprintf(printed, sizeof printed, "%" PRId64 "%c", *number, behind);
    if (*number < least || *number > most || strncmp(*text, printed, (size_t)length) != 0) {
        return 0;
    }
    *text = end + 1;
    return 1;
}

/* `r start length`, `w start length`, or a number for the type */
static int reads_lock(const char *text, int64_t *lock)
{
    if (strncmp(text, "r ", 2) == 0 || strncmp(text, "w ", 2) == 0) {
        lock[SOODHIQUNE_LOCK_TYPE] = *text == 'r' ? SOODHIQUNE_READS : SOODHIQUNE_WRITES;
        text += 2;
    } else if (!reads_number(&text, INT64_MIN, INT64_MAX, ' ', lock + SOODHIQUNE_LOCK_TYPE)) {
        return 0;
    }
    return reads_number(&text, INT64_MIN, INT64_MAX, ' ', lock + SOODHIQUNE_LOCK_START) &&
           reads_number(&text, INT64_MIN, INT64_MAX, '\n', lock + SOODHIQUNE_LOCK_LENGTH) && *text == '\0';
}

/* `v seat start end kind`; the seat is not kept */
static int reads_claim(const char *text, uint32_t *claim)
{
    int64_t numbers[4];
    size_t place;
    if (strncmp(text, "v ", 2) != 0) {
        return 0;
    }
    text += 2;
    for (place = 0; place < 4; place++) {
        if (!reads_number(&text, 0, UINT32_MAX, place < 3 ? ' ' : '\n', numbers + place)) {
            return 0;
        }
    }
    claim[SOODHIQUNE_CLAIM_START] = (uint32_t)numbers[1];
    claim[SOODHIQUNE_CLAIM_END] = (uint32_t)numbers[2];
    claim[SOODHIQUNE_CLAIM_KIND] = (uint32_t)numbers[3];
    return *text == '\0';
}

static int has_room(void)
{
    if (records == room) {
        room = 2 * room + 64;
        locks = (int64_t *)realloc(locks, SOODHIQUNE_LOCK_WORDS(room) * sizeof *locks);
        claims = (uint32_t *)realloc(claims, SOODHIQUNE_CLAIM_WORDS(room) * sizeof *claims);
    }
    return locks != NULL && claims != NULL;
}

static int read_all(int imports)
{
    char line[LINE_BYTES];
    for (records = 0; fgets(line, sizeof line, stdin) != NULL; records++) {
        if (!has_room()) {
            fputs("locks: no memory for so many lines\n", stderr);
            return UNREAD;
        }
        if (!(imports ? reads_lock(line, locks + SOODHIQUNE_LOCK_WORDS(records))
                      : reads_claim(line, claims + SOODHIQUNE_CLAIM_WORDS(records)))) {
            fprintf(stderr, "bad %lu\n", (unsigned long)records + 1);
            return BAD;
        }
    }
    if (ferror(stdin)) {
        perror("locks: standard input could not be read");
        return UNREAD;
    }
    return 0;
}

static void print_claim(size_t place)
{
    const uint32_t *claim = claims + SOODHIQUNE_CLAIM_WORDS(place);
    printf("v %lu %" PRIu32 " %" PRIu32 " %" PRIu32 "\n", (unsigned long)place, claim[SOODHIQUNE_CLAIM_START], claim[SOODHIQUNE_CLAIM_END],
           claim[SOODHIQUNE_CLAIM_KIND]);
}

static void print_lock(size_t place)
{
    const int64_t *lock = locks + SOODHIQUNE_LOCK_WORDS(place);
    printf("%c %" PRId64 " %" PRId64 "\n", lock[SOODHIQUNE_LOCK_TYPE] == SOODHIQUNE_READS ? 'r' : 'w', lock[SOODHIQUNE_LOCK_START],
           lock[SOODHIQUNE_LOCK_LENGTH]);
}

/* the title of no frames has no line */
static int say_refused(struct soodhiqune_moved moved, int64_t title)
{
    fprintf(stderr, "no %" PRIu32, moved.refusal);
    if (title != 0) {
        fprintf(stderr, ", line %lu", (unsigned long)moved.place + 1);
    }
    fputs("\n", stderr);
    return REFUSED;
}

static int move_all(int imports, int64_t title)
{
    const size_t lock_words = SOODHIQUNE_LOCK_WORDS(records), claim_words = SOODHIQUNE_CLAIM_WORDS(records);
    const struct soodhiqune_moved moved = imports ? soodhiqune_import((uint32_t)title, locks, lock_words, claims, claim_words)
                                                  : soodhiqune_export((uint32_t)title, claims, claim_words, locks, lock_words);
    size_t place;
    if (moved.refusal != SOODHIQUNE_ACCEPTED) {
        return say_refused(moved, title);
    }
    for (place = 0; place < records; place++) {
        imports ? print_claim(place) : print_lock(place);
    }
    if (ferror(stdout) || fclose(stdout) != 0) {
        perror("locks: not all could be written");
        return UNWRITTEN;
    }
    return 0;
}

int main(int count, char **words)
{
    const int imports = count > 1 && strcmp(words[1], "import") == 0, exports = count > 1 && strcmp(words[1], "export") == 0;
    const char *text = count > 2 ? words[2] : "";
    int64_t title;
    int status;
    if (count != 3 || !(imports || exports) || !reads_number(&text, 0, UINT32_MAX, '\0', &title)) {
        fputs("locks import TITLE or locks export TITLE, TITLE being a number of frames up to 4294967295\n", stderr);
        return MISUSED;
    }
    status = read_all(imports);
    return status != 0 ? status : move_all(imports, title);
}
