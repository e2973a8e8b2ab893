/* Edits the tables that a session reaches, and has them judged twice: by the
   proved library, which answers 9 where they break a table rule, and by this
   program's own rules. Where they break none, the next call is answered by
   both, and answers and tables have to agree.

   usage: judged SEED EDITS <SESSION   so many edited tables after each call */
#include "beside.h"
#include "edits.h"

#include <stdio.h>
#include <stdlib.h>
#include <string.h>

/* How often each rule was the first that was broken. */
enum { WORDS_MOST = 40 };
static const char *words_of[WORDS_MOST];
static unsigned long times_of[WORDS_MOST];
static unsigned long unbroken, refused;

static void count_words(const char *words)
{
    for (int i = 0; i < WORDS_MOST; i++) {
        if (words_of[i] == NULL) {
            words_of[i] = words;
        }
        if (strcmp(words_of[i], words) == 0) {
            times_of[i]++;
            return;
        }
    }
}

/* One table, edited by chance, and one call on it. What this program reads of
   the table as it was is given, too. Every second one has the other rule of the
   grants. */
static void judge(const struct khilzurgee_tables *tables,
                  const struct executive *read, const uint8_t *bytes,
                  unsigned long call, struct random *random)
{
    struct khilzurgee_tables edited = *tables;
    struct executive executive = *read;
    unsigned edits = 1 + random_below(random, 2);
    int meaning = random_one_in(random, 2);
    if (random_one_in(random, 2)) {
        edited.holes = edited.holes == LOWEST_START ? SMALLEST_HOLE : LOWEST_START;
        executive.holes = edited.holes;
    }
    for (unsigned i = 0; i < edits; i++) {
        if (meaning) {
            edit_meaning(&executive, random);
        } else {
            edit_field(&edited, random);
        }
    }
    if (meaning) {
        tables_write(&edited, &executive);
    }
    struct beside said = beside(&edited, bytes, CALL_LENGTH);
    if (said.differs != NULL) {
        fprintf(stderr, "judged: after call %lu: %s (%s)\n", call, said.differs,
                said.rule == NULL ? "no rule is broken" : said.rule);
        exit(1);
    }
    if (said.rule == NULL) {
        unbroken++;
        refused += said.line.refusal != 0;
    } else {
        count_words(said.rule);
    }
}

static int report(void)
{
    unsigned long all = unbroken;
    for (int i = 0; i < WORDS_MOST && words_of[i] != NULL; i++) {
        printf("%8lu  %s\n", times_of[i], words_of[i]);
        all += times_of[i];
    }
    printf("%8lu  no rule broken: answers and tables agree, %lu refused\n",
           unbroken, refused);
    printf("judged: %lu tables, each as it should be\n", all);
    return ferror(stdout) != 0;
}

int main(int count, char **arguments)
{
    struct khilzurgee_tables tables;
    struct random random;
    uint8_t image[IMAGE_LENGTH];
    uint8_t bytes[CALL_LENGTH];
    unsigned long call = 0;
    if (count != 3) {
        fprintf(stderr, "usage: judged SEED EDITS <SESSION\n");
        return 2;
    }
    random_seed(&random, strtoull(arguments[1], NULL, 10));
    unsigned long edits = strtoul(arguments[2], NULL, 10);
    size_t length = fread(image, 1, IMAGE_LENGTH, stdin);
    if (khilzurgee_load(&tables, image, length).refusal != 0) {
        fprintf(stderr, "judged: the image is refused\n");
        return 1;
    }
    while (fread(bytes, 1, CALL_LENGTH, stdin) == CALL_LENGTH) {
        struct executive read;
        if (tables_read(&read, &tables) != NULL) {
            fprintf(stderr, "judged: the tables after call %lu cannot be read\n", call);
            return 1;
        }
        for (unsigned long i = 0; i < edits; i++) {
            judge(&tables, &read, bytes, call, &random);
        }
        call++;
        khilzurgee_advance(&tables, bytes, CALL_LENGTH);
    }
    return report();
}
