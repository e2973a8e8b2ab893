/* Plays a session on the executive: reads an image of 512 bytes and then calls
   of 16 bytes each, and prints the three numbers of the load and of each call,
   a line each, as the desk does.

   usage: session [--lowest] [--since] FILE     in any order; - for FILE is the
                                                standard input

   With --lowest grants go by the lowest start: the old program, for recordings
   made before document 02's E8.

   With --since the readings that a call has changed stand behind its numbers, in
   the order of the task blocks: 4@17 where the task of block 4 waits since the
   clock read 17, 4@0 where it waits no more.

   Exit status: 0 the session was played, 1 the image was refused, 2 something
   could not be read or written, or bad usage. */
#include <errno.h>
#include <stdio.h>
#include <string.h>

#include "khilzurgee.h"

enum {
    PLAYED = 0,
    REFUSED = 1,
    FAILED = 2
};

/* What the words of the command ask for. */
struct wishes {
    int lowest;
    int since;
    const char *file;
};

static int fail(const char *name, const char *doing)
{
    int why = errno;
    fflush(stdout);
    fprintf(stderr, "session: %s: cannot %s", name, doing);
    if (why != 0) {
        fprintf(stderr, ": %s", strerror(why));
    }
    fprintf(stderr, "\n");
    return FAILED;
}

static void print(struct khilzurgee_line line)
{
    printf("%u %u %u", (unsigned)line.refusal, (unsigned)line.result, (unsigned)line.running);
}

/* The readings that differ between the blocks before a call and after it. */
static void print_since(const struct khilzurgee_task *before, const struct khilzurgee_task *after)
{
    for (unsigned block = 1; block <= KHILZURGEE_TASKS; block++) {
        if (after[block].since != before[block].since) {
            printf(" %u@%lu", block, (unsigned long)after[block].since);
        }
    }
}

/* One call, and its line. */
static void advance(struct khilzurgee_tables *tables, const uint8_t *call, size_t length, int since)
{
    struct khilzurgee_task before[KHILZURGEE_TASKS + 1];
    memcpy(before, tables->tasks, sizeof before);
    print(khilzurgee_advance(tables, call, length));
    if (since) {
        print_since(before, tables->tasks);
    }
    printf("\n");
}

/* The load by the rule that is asked for, and the calls where it is accepted. Fewer
   than 16 bytes at the end are a call too: it is refused by 10. */
static int play(FILE *file, const struct wishes *wishes)
{
    static struct khilzurgee_tables tables; /* all that the executive keeps */
    uint8_t image[KHILZURGEE_IMAGE_LENGTH];
    uint8_t call[KHILZURGEE_CALL_LENGTH];

    size_t length = fread(image, 1, sizeof image, file);
    struct khilzurgee_line begun = wishes->lowest ? khilzurgee_load_lowest(&tables, image, length)
                                                  : khilzurgee_load(&tables, image, length);
    print(begun);
    printf("\n");
    if (begun.refusal != KHILZURGEE_ACCEPTED) {
        return REFUSED;
    }
    while ((length = fread(call, 1, sizeof call, file)) > 0) {
        advance(&tables, call, length, wishes->since);
    }
    return PLAYED;
}

static int play_file(FILE *file, const char *name, const struct wishes *wishes)
{
    errno = 0;
    int status = play(file, wishes);
    if (ferror(file)) {
        return fail(name, "be read");
    }
    errno = 0;
    if (fflush(stdout) != 0 || ferror(stdout)) {
        return fail("standard output", "be written");
    }
    return status;
}

/* The words come in any order, each at most once. 0 where they are not such. */
static int read_wishes(struct wishes *wishes, int count, char **words)
{
    for (int i = 1; i < count; i++) {
        if (strcmp(words[i], "--lowest") == 0 && !wishes->lowest) {
            wishes->lowest = 1;
        } else if (strcmp(words[i], "--since") == 0 && !wishes->since) {
            wishes->since = 1;
        } else if (strncmp(words[i], "--", 2) != 0 && wishes->file == NULL) {
            wishes->file = words[i];
        } else {
            return 0;
        }
    }
    return wishes->file != NULL;
}

int main(int argc, char **argv)
{
    struct wishes wishes = {0, 0, NULL};
    if (!read_wishes(&wishes, argc, argv)) {
        fprintf(stderr, "usage: session [--lowest] [--since] FILE (- for the standard input)\n");
        return FAILED;
    }
    if (strcmp(wishes.file, "-") == 0) {
        return play_file(stdin, "standard input", &wishes);
    }
    errno = 0;
    FILE *file = fopen(wishes.file, "rb");
    if (file == NULL) {
        return fail(wishes.file, "be opened");
    }
    int status = play_file(file, wishes.file, &wishes);
    fclose(file);
    return status;
}
