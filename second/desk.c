/* "The desk program reads an image and then calls from standard input. It
   writes a line for the load (refusal, M or 0, 0), then one per call; a short
   last call is 10; after a refused load it stops."

   With --lowest a grant takes document 01's lowest start, and not the smallest
   hole of document 02's E8: "The desk keeps the old program".
   With --check it tests its own tables after every call, and each grant.
   With --since the readings that the call has changed stand behind the three
   numbers of its line: document 02's E6 gives every task block "the clock
   reading at which it last entered any waiting queue".
   With --codes each line ends with the code of the call too, and with a word for
   each grant, for counting: "lowest" where it takes the lowest start at which
   enough are free, else "higher". */
#include "executive.h"
#include "grants.h"
#include "rules.h"

#include <inttypes.h>
#include <stdio.h>
#include <stdlib.h>
#include <string.h>

/* What the arguments ask for. */
struct wishes {
    int lowest;
    int check;
    int since;
    int codes;
};

/* A break is told loudly, and nothing goes on. */
static void broken(unsigned long call, const char *words)
{
    fprintf(stderr, "desk: BROKEN after call %lu: %s\n", call, words);
    abort();
}

/* The grants that were seen: how many of this call take the lowest start, and how
   many a higher one; the words that one of any call breaks, NULL if none. */
static struct {
    int lowest;
    int higher;
    const char *broken;
} seen;

static void see_grant(const struct executive *executive, int block, int start)
{
    const char *words = grant_broken(executive, block, start);
    if (words != NULL) {
        seen.broken = words;
    }
    if (grant_is_lowest(executive, block, start)) {
        seen.lowest++;
    } else {
        seen.higher++;
    }
}

static void write_grants(void)
{
    for (int i = 0; i < seen.lowest; i++) {
        printf(" lowest");
    }
    for (int i = 0; i < seen.higher; i++) {
        printf(" higher");
    }
}

/* Document 02, E6: the readings that a call has changed, in block order, each
   as BLOCK@READING. */
static void write_readings(const struct executive *before,
                           const struct executive *after)
{
    for (int block = 1; block <= TASKS; block++) {
        if (after->task[block].since != before->task[block].since) {
            printf(" %d@%" PRIu32, block, after->task[block].since);
        }
    }
}

/* "It writes a line [...]": each before the next call is waited for. */
static void write_line(const struct answer *answer, const struct wishes *wishes,
                       const struct executive *before,
                       const struct executive *after, const char *code)
{
    printf("%d %d %d", answer->refusal, answer->result, answer->running);
    if (wishes->since) {
        write_readings(before, after);
    }
    if (wishes->codes) {
        printf(" %s", code);
        write_grants();
    }
    printf("\n");
    fflush(stdout);
}

/* The name of a call's code, for counting. */
static const char *code_name(const uint8_t *bytes, size_t length)
{
    if (length != CALL_LENGTH) {
        return "short";
    }
    if (bytes[0] >= CODES || code_table[bytes[0]].name == NULL) {
        return "unknown";
    }
    return code_table[bytes[0]].name;
}

/* "each task newly dispatched is the first of the best level that is ready":
   the call is acted again without its dispatch, to see who was ready. Its grants
   were seen. */
static void check_dispatch(const struct executive *before,
                           const struct executive *after, unsigned long number,
                           const uint8_t *bytes, size_t length)
{
    struct executive acted = *before;
    int first = 0;
    witness_of_grants = NULL;
    executive_act(&acted, bytes, length);
    witness_of_grants = see_grant;
    for (int level = LEVELS; level >= 1; level--) {
        if (acted.ready[level].count > 0) {
            first = acted.ready[level].block[0];
        }
    }
    if (after->running != (acted.running != 0 ? acted.running : first)) {
        broken(number, "the newly dispatched is the first of the best level");
    }
}

/* Document 02, E1: "signalled on or off since the load". An accepted SIGNAL adds
   its event, and no call takes one away. */
static void check_signalled(const struct executive *before,
                            const struct executive *after, unsigned long number,
                            const uint8_t *bytes)
{
    uint64_t added = bytes[0] == SIGNAL ? (uint64_t)1 << bytes[2] : 0;
    if (after->signalled != (before->signalled | added)) {
        broken(number, "SIGNAL adds its event to the signalled, nothing else");
    }
}

/* Document 02, E6: what the reading of a block has to be after a call. It is "0
   while free, ready or running". Else who stays where it was keeps it, and
   entering a waiting place or "Moving between waiting queues sets it anew", by
   the clock as it is then. */
static uint32_t reading_wanted(const struct task *before,
                               const struct task *after, uint32_t clock)
{
    if (after->place == TASK_FREE || after->place == READY
        || after->place == RUNNING) {
        return 0;
    }
    return after->place == before->place ? before->since : clock;
}

/* The readings of all blocks, from the tables before and after a call. */
static void check_readings(const struct executive *before,
                           const struct executive *after, unsigned long number)
{
    for (int block = 1; block <= TASKS; block++) {
        if (after->task[block].since
            != reading_wanted(&before->task[block], &after->task[block],
                              after->clock)) {
            broken(number, "a reading is the clock at the start of the wait");
        }
    }
}

/* Demand 3 and the table rules after a call, and "A refused call changes no
   table [...] and no accepted answer carries a zero result". */
static void check_call(const struct executive *before,
                       const struct executive *after, unsigned long number,
                       const uint8_t *bytes, size_t length,
                       const struct answer *answer)
{
    const char *words = seen.broken != NULL ? seen.broken : rules_broken(after);
    if (words != NULL) {
        broken(number, words);
    }
    if (after->holes != before->holes) {
        broken(number, "no call changes the rule of the grants");
    }
    if (answer->refusal != 0) {
        if (memcmp(before, after, sizeof *before) != 0) {
            broken(number, "a refused call changes no table");
        }
        if (answer->result != 0 || answer->running != before->running) {
            broken(number, "a refused call has result 0, running unchanged");
        }
        return;
    }
    if (answer->result == 0) {
        broken(number, "no accepted answer carries a zero result");
    }
    check_signalled(before, after, number, bytes);
    check_readings(before, after, number);
    check_dispatch(before, after, number, bytes, length);
}

/* "then one per call; a short last call is 10" */
static void take_calls(struct executive *executive, const struct wishes *wishes)
{
    struct executive before;
    uint8_t bytes[CALL_LENGTH];
    unsigned long number = 0;
    size_t length = fread(bytes, 1, CALL_LENGTH, stdin);
    while (length > 0) {
        number++;
        memcpy(&before, executive, sizeof before);
        seen.lowest = 0;
        seen.higher = 0;
        struct answer answer = executive_step(executive, bytes, length);
        if (wishes->check) {
            check_call(&before, executive, number, bytes, length, &answer);
        }
        write_line(&answer, wishes, &before, executive,
                   code_name(bytes, length));
        length = length < CALL_LENGTH ? 0 : fread(bytes, 1, CALL_LENGTH, stdin);
    }
}

/* "An accepted image written back gives the same 512 bytes". The load sets the
   rule of the grants. */
static void check_load(const struct executive *executive, const uint8_t *image,
                       const struct wishes *wishes)
{
    uint8_t written[IMAGE_LENGTH];
    const char *words = rules_broken(executive);
    if (words != NULL) {
        broken(0, words);
    }
    if (image_write(&executive->directory, written, IMAGE_LENGTH).result != 1
        || memcmp(written, image, IMAGE_LENGTH) != 0) {
        broken(0, "an accepted image written back gives the same bytes");
    }
    if (executive->holes != (wishes->lowest ? LOWEST_START : SMALLEST_HOLE)) {
        broken(0, "the load sets the rule of the grants");
    }
}

/* The arguments; 0 if one isn't known. */
static int read_wishes(struct wishes *wishes, int count, char **arguments)
{
    for (int i = 1; i < count; i++) {
        if (strcmp(arguments[i], "--lowest") == 0) {
            wishes->lowest = 1;
        } else if (strcmp(arguments[i], "--check") == 0) {
            wishes->check = 1;
        } else if (strcmp(arguments[i], "--since") == 0) {
            wishes->since = 1;
        } else if (strcmp(arguments[i], "--codes") == 0) {
            wishes->codes = 1;
        } else {
            return 0;
        }
    }
    return 1;
}

/* "after a refused load it stops" */
int main(int count, char **arguments)
{
    struct executive executive;
    struct wishes wishes = {0, 0, 0, 0};
    uint8_t image[IMAGE_LENGTH];
    if (!read_wishes(&wishes, count, arguments)) {
        fprintf(stderr,
                "usage: desk [--lowest] [--check] [--since] [--codes]\n");
        return 2;
    }
    size_t length = fread(image, 1, IMAGE_LENGTH, stdin);
    struct answer answer = wishes.lowest
        ? executive_load_lowest(&executive, image, length)
        : executive_load(&executive, image, length);
    if (wishes.check && answer.refusal == 0) {
        check_load(&executive, image, &wishes);
    }
    write_line(&answer, &wishes, &executive, &executive, "load");
    if (answer.refusal == 0) {
        witness_of_grants = wishes.check || wishes.codes ? see_grant : NULL;
        take_calls(&executive, &wishes);
    }
    if (ferror(stdout)) {
        fprintf(stderr, "desk: a line cannot be written\n");
        return 2;
    }
    return 0;
}
