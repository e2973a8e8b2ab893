/* Writes the text of a session for a profile and a seed:
   generate [--lowest] PROFILE SEED CALLS. The tables of the second program
   itself steer it, so that full tables, long chains and pending requests are
   reached. With --lowest they are those of the old program (document 02, E8),
   and the text is to the byte what it was before E8. */
#include "moves.h"

#include <inttypes.h>
#include <stdio.h>
#include <stdlib.h>
#include <string.h>

/* One session in the making. */
struct session {
    const struct profile *profile;
    int lowest;
    struct random random;
    struct executive executive;
    int filling;
    unsigned phase_left;
};

/* The image as good as the profile makes it. */
static void make_directory(struct session *session, struct directory *directory)
{
    const struct profile *profile = session->profile;
    struct random *random = &session->random;
    memset(directory, 0, sizeof *directory);
    directory->modules = (uint8_t)(random_one_in(random, 5)
        ? MODULES : 1 + random_below(random, 9));
    directory->every = profile->every[random_below(random, EVERY_CHOICES)];
    directory->events = profile->events;
    for (int i = 0; i < directory->modules; i++) {
        struct module *module = &directory->module[i];
        module->level = (uint8_t)(1 + random_below(random, LEVELS));
        if (profile->only_level != 0) {
            module->level = profile->only_level;
        }
        module->units = profile->units[random_below(random, UNITS_CHOICES)];
        module->flags = (uint8_t)random_below(random, 2);
        module->entry = (uint32_t)random_next(random);
    }
}

/* 6: "a used entry with a bad level, units or flags" */
static void damage_module(struct random *random, struct module *module)
{
    switch (random_below(random, 4)) {
    case 0:
        module->level = 0;
        break;
    case 1:
        module->level = (uint8_t)(LEVELS + 1 + random_below(random, 252));
        break;
    case 2:
        module->units = (uint8_t)(UNITS + 1 + random_below(random, 191));
        break;
    default:
        module->flags = (uint8_t)(2 + random_below(random, 254));
        break;
    }
}

/* The fields of a directory made bad for 4, 5 or 6; for others as it is. */
static void damage_directory(struct random *random, struct directory *directory,
                             unsigned refusal)
{
    if (refusal == 4) {
        directory->modules = (uint8_t)(random_one_in(random, 2)
            ? 0 : MODULES + 1 + random_below(random, 223));
    } else if (refusal == 5) {
        directory->every = 0;
    } else if (refusal == 6) {
        int number = (int)random_below(random, directory->modules);
        damage_module(random, &directory->module[number]);
    }
}

/* 7: a place "that has to be zero" */
static unsigned zero_place(struct random *random)
{
    switch (random_below(random, 3)) {
    case 0:
        return AT_FIRST_ZERO + random_below(random, AT_EVENTS - AT_FIRST_ZERO);
    case 1:
        return AT_ENTRIES + ENTRY_LENGTH * random_below(random, MODULES)
            + ENTRY_ZERO;
    default:
        return AT_LAST_ZERO + random_below(random, AT_CHECK - AT_LAST_ZERO);
    }
}

/* The lines that damage an image for 1, 2, 3 or 7. */
static void print_damage(struct random *random, unsigned refusal)
{
    unsigned value = 1 + random_below(random, 255);
    if (refusal == 1) {
        printf("cut %u\n", random_below(random, IMAGE_LENGTH));
    } else if (refusal == 2) {
        printf("unsealed\n");
    } else if (refusal == 3) {
        printf("before %u %u\n", AT_FORM, value == 1 ? 0 : value);
    } else if (refusal == 7) {
        printf("before %u %u\n", zero_place(random), value);
    }
}

/* One refusal or two that the image is damaged for; 0 is none. Where M itself
   is bad there is no used entry to damage. */
static void choose_damage(struct session *session, struct directory *directory,
                          unsigned *first, unsigned *second)
{
    struct random *random = &session->random;
    *first = 0;
    *second = 0;
    if (session->profile->bad_images) {
        *first = 1 + random_below(random, 7);
        if (random_one_in(random, 3)) {
            *second = *first + random_below(random, 8 - *first);
        }
        damage_directory(random, directory, *second);
        damage_directory(random, directory, *first);
    }
}

/* The image's lines; it is loaded too, as it was before the damage. The answer
   says whether calls can follow. */
static int make_image(struct session *session)
{
    struct directory directory;
    uint8_t bytes[IMAGE_LENGTH];
    unsigned first;
    unsigned second;
    make_directory(session, &directory);
    image_put(&directory, bytes);
    if (session->lowest) {
        executive_load_lowest(&session->executive, bytes, IMAGE_LENGTH);
    } else {
        executive_load(&session->executive, bytes, IMAGE_LENGTH);
    }
    choose_damage(session, &directory, &first, &second);
    printf("image modules=%u every=%u events=0x%" PRIx64 "\n",
           directory.modules, directory.every, directory.events);
    for (int i = 0; i < session->executive.directory.modules; i++) {
        const struct module *module = &directory.module[i];
        printf("module %u %u %u %" PRIu32 "\n", module->level, module->units,
               module->flags, module->entry);
    }
    print_damage(&session->random, first);
    if (second != first) {
        print_damage(&session->random, second);
    }
    return first != 1 && second != 1;
}

/* "Fields that a call doesn't use are ignored": now and then they hold
   something. */
static void add_noise(struct random *random, struct call *call)
{
    int conditioned = call->code == SCHEDULE || call->code == WAIT;
    int transfers = call->code == READ || call->code == WRITE;
    int timed = conditioned && call->kind >= AT_TIME;
    int counted = conditioned && call->kind == ON_EVENTS;
    int numbered = call->code == LINK || call->code == SCHEDULE
        || call->code == SIGNAL || call->code == TEST_EVENT || transfers
        || call->code == CHECK || call->code == OPERATOR_START;
    if (!conditioned) {
        call->kind = (uint8_t)random_below(random, 256);
    }
    if (!numbered) {
        call->number = (uint8_t)random_below(random, 256);
    }
    if (call->code != SIGNAL && !counted) {
        call->value = (uint8_t)random_below(random, 256);
    }
    if (!transfers && !timed) {
        call->amount = (uint32_t)random_next(random);
    }
    if (!counted) {
        call->set = random_next(random);
    }
}

/* One move by the profile's weights; tried again until one can be made. The
   timer always can. */
static void choose_call(struct session *session, struct call *call)
{
    struct random *random = &session->random;
    const unsigned *weights = session->filling ? session->profile->fill
                                               : session->profile->drain;
    unsigned whole = 0;
    for (int move = 0; move < MOVES; move++) {
        whole += weights[move];
    }
    for (int tries = 0; tries < 100; tries++) {
        unsigned at = random_below(random, whole);
        int move = 0;
        while (at >= weights[move]) {
            at -= weights[move];
            move++;
        }
        memset(call, 0, sizeof *call);
        if (move_make((enum move)move, &session->executive, random, call)) {
            return;
        }
    }
    memset(call, 0, sizeof *call);
    call->code = TIMER;
}

/* The call as a line: by name, or raw if its code has none. */
static void print_call(const struct call *call)
{
    if (call->code >= CODES || code_table[call->code].name == NULL) {
        printf("raw %u %u %u %u %" PRIu32 " 0x%" PRIx64 "\n", call->code,
               call->kind, call->number, call->value, call->amount, call->set);
        return;
    }
    printf("%s", code_table[call->code].name);
    if (call->number != 0) {
        printf(" %u", call->number);
    }
    if (call->kind != 0) {
        printf(" kind=%u", call->kind);
    }
    if (call->value != 0) {
        printf(" value=%u", call->value);
    }
    if (call->amount != 0) {
        printf(" amount=%" PRIu32, call->amount);
    }
    if (call->set != 0) {
        printf(" set=0x%" PRIx64, call->set);
    }
    printf("\n");
}

/* Nobody runs, no block is free, and no interrupt soon changes that. */
static int is_stuck(const struct executive *executive)
{
    const struct queue *queue = &executive->time_queue;
    return executive->running == 0 && executive->channel == 0
        && task_lowest_free(executive) == 0
        && (queue->count == 0
            || executive->task[queue->block[0]].time
               > (uint64_t)executive->clock + 300);
}

/* The calls, by turns filling the tables and draining them. */
static void make_calls(struct session *session, unsigned long calls)
{
    struct random *random = &session->random;
    while (calls > 0 && !is_stuck(&session->executive)) {
        struct call call;
        uint8_t bytes[CALL_LENGTH];
        if (session->phase_left == 0) {
            session->filling = !session->filling;
            session->phase_left = 10 + random_below(random, 60);
        }
        session->phase_left--;
        choose_call(session, &call);
        if (random_one_in(random, 12)) {
            add_noise(random, &call);
        }
        print_call(&call);
        call_put(&call, bytes);
        executive_step(&session->executive, bytes, CALL_LENGTH);
        calls--;
    }
}

/* "a short last call is 10" */
static void make_short_call(struct random *random)
{
    unsigned length = 1 + random_below(random, CALL_LENGTH - 1);
    printf("bytes");
    for (unsigned i = 0; i < length; i++) {
        printf(" %u", i == 0 ? random_below(random, CODES)
                             : random_below(random, 256));
    }
    printf("\n");
}

/* Digits alone, so that no slip of the pen is taken for 0. */
static int is_number(const char *text)
{
    return *text != '\0' && text[strspn(text, "0123456789")] == '\0';
}

/* generate [--lowest] PROFILE SEED CALLS. The first line says by which rule it
   was steered where that is not the one of before E8. */
int main(int count, char **arguments)
{
    struct session session;
    memset(&session, 0, sizeof session);
    session.lowest = count > 1 && strcmp(arguments[1], "--lowest") == 0;
    arguments += session.lowest;
    if (count - session.lowest == 4 && is_number(arguments[2])
        && is_number(arguments[3])) {
        session.profile = profile_find(arguments[1]);
    }
    if (session.profile == NULL) {
        fprintf(stderr, "usage: generate [--lowest] PROFILE SEED CALLS\n");
        return 1;
    }
    random_seed(&session.random, strtoull(arguments[2], NULL, 10));
    printf("# generate %s %s %s%s\n", arguments[1], arguments[2], arguments[3],
           session.lowest ? "" : " by the smallest hole");
    if (make_image(&session)) {
        make_calls(&session, strtoul(arguments[3], NULL, 10));
        make_short_call(&session.random);
    }
    if (fflush(stdout) != 0 || ferror(stdout)) {
        fprintf(stderr, "generate: the session cannot be written\n");
        return 2;
    }
    return 0;
}
