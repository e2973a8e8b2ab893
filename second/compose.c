/* Turns the text of a session into the bytes that the desk reads. The format
   is in README.md. Bad text is refused with its line number, exit status 1. */
#include "executive.h"

#include <stdio.h>
#include <stdlib.h>
#include <string.h>

enum { LINE_ROOM = 400, WORDS_MOST = 24, SETS_MOST = 64 };

/* "set byte `at` of the image to `value`" */
struct set_byte {
    int at;
    uint8_t value;
};

/* The session as far as it is read. The image is written when the first call
   comes, or the end. */
struct session {
    unsigned long line;
    int has_image;
    int image_written;
    int ended;
    struct directory directory;
    int modules_named;
    int befores;
    struct set_byte before[SETS_MOST];
    int afters;
    struct set_byte after[SETS_MOST];
    int unsealed;
    int cut;
};

/* The words of one line. */
struct line {
    int count;
    char *word[WORDS_MOST];
};

/* Bad text: say where and stop. */
static void refuse(const struct session *session, const char *why)
{
    fprintf(stderr, "compose: line %lu: %s\n", session->line, why);
    exit(1);
}

/* The value of a digit in the base, or -1. */
static int digit_of(char letter, int base)
{
    const char *digits = "0123456789abcdef";
    const char *found = letter == '\0' ? NULL : strchr(digits, letter);
    return found == NULL || found - digits >= base ? -1 : (int)(found - digits);
}

/* A number, decimal or 0x and small hexadecimal digits, at most `most`. */
static uint64_t number(const struct session *session, const char *text,
                       uint64_t most)
{
    uint64_t value = 0;
    int base = 10;
    if (text[0] == '0' && text[1] == 'x') {
        base = 16;
        text += 2;
    }
    if (*text == '\0') {
        refuse(session, "a number is missing");
    }
    for (; *text != '\0'; text++) {
        int digit = digit_of(*text, base);
        if (digit < 0) {
            refuse(session, "not a number");
        }
        if (value > (most - (uint64_t)digit) / (uint64_t)base) {
            refuse(session, "number too large");
        }
        value = value * (uint64_t)base + (uint64_t)digit;
    }
    return value;
}

/* The text behind `name=`, or NULL if the word doesn't begin so. */
static const char *behind(const char *word, const char *name)
{
    size_t length = strlen(name);
    if (strncmp(word, name, length) == 0 && word[length] == '=') {
        return word + length + 1;
    }
    return NULL;
}

/* image modules=M every=N events=SET */
static void take_image(struct session *session, const struct line *line)
{
    struct directory *directory = &session->directory;
    if (session->has_image) {
        refuse(session, "a second image");
    }
    session->has_image = 1;
    for (int i = 1; i < line->count; i++) {
        const char *word = line->word[i];
        const char *text;
        if ((text = behind(word, "modules")) != NULL) {
            directory->modules = (uint8_t)number(session, text, UINT8_MAX);
        } else if ((text = behind(word, "every")) != NULL) {
            directory->every = (uint8_t)number(session, text, UINT8_MAX);
        } else if ((text = behind(word, "events")) != NULL) {
            directory->events = number(session, text, UINT64_MAX);
        } else {
            refuse(session, "unknown field of the image");
        }
    }
}

/* module LEVEL UNITS FLAGS ENTRY, for the next of the 32 entries */
static void take_module(struct session *session, const struct line *line)
{
    if (line->count != 5) {
        refuse(session, "a module has level, units, flags and entry");
    }
    if (session->modules_named == MODULES) {
        refuse(session, "more than 32 modules");
    }
    struct module *module = &session->directory.module[session->modules_named];
    session->modules_named++;
    module->level = (uint8_t)number(session, line->word[1], UINT8_MAX);
    module->units = (uint8_t)number(session, line->word[2], UINT8_MAX);
    module->flags = (uint8_t)number(session, line->word[3], UINT8_MAX);
    module->entry = (uint32_t)number(session, line->word[4], UINT32_MAX);
}

/* before AT VALUE, after AT VALUE */
static void take_set_byte(struct session *session, const struct line *line,
                          struct set_byte *list, int *count)
{
    if (line->count != 3) {
        refuse(session, "a byte is set by its place and its value");
    }
    if (*count == SETS_MOST) {
        refuse(session, "too many bytes set");
    }
    list[*count].at = (int)number(session, line->word[1], IMAGE_LENGTH - 1);
    list[*count].value = (uint8_t)number(session, line->word[2], UINT8_MAX);
    (*count)++;
}

/* A line about the image; 0 if it is none. */
static int take_image_line(struct session *session, const struct line *line)
{
    const char *word = line->word[0];
    if (strcmp(word, "image") == 0) {
        take_image(session, line);
    } else if (strcmp(word, "module") == 0) {
        take_module(session, line);
    } else if (strcmp(word, "before") == 0) {
        take_set_byte(session, line, session->before, &session->befores);
    } else if (strcmp(word, "after") == 0) {
        take_set_byte(session, line, session->after, &session->afters);
    } else if (strcmp(word, "unsealed") == 0 && line->count == 1) {
        session->unsealed = 1;
    } else if (strcmp(word, "cut") == 0 && line->count == 2) {
        session->cut = (int)number(session, line->word[1], IMAGE_LENGTH);
    } else {
        return 0;
    }
    if (session->image_written || !session->has_image) {
        refuse(session, "the image comes first, then the calls");
    }
    return 1;
}

/* The image's bytes: the fields, `before`, the check, `after`, the cut. */
static void write_image(struct session *session)
{
    uint8_t bytes[IMAGE_LENGTH];
    if (session->image_written) {
        return;
    }
    if (!session->has_image) {
        refuse(session, "no image");
    }
    image_put(&session->directory, bytes);
    for (int i = 0; i < session->befores; i++) {
        bytes[session->before[i].at] = session->before[i].value;
    }
    image_seal(bytes);
    if (session->unsealed) {
        number_put(bytes + AT_CHECK, 2, 0);
    }
    for (int i = 0; i < session->afters; i++) {
        bytes[session->after[i].at] = session->after[i].value;
    }
    fwrite(bytes, 1, (size_t)session->cut, stdout);
    session->image_written = 1;
}

/* raw CODE KIND NUMBER VALUE AMOUNT SET */
static void take_raw(const struct session *session, const struct line *line,
                     struct call *call)
{
    if (line->count != 7) {
        refuse(session, "a raw call has six numbers");
    }
    call->code = (uint8_t)number(session, line->word[1], UINT8_MAX);
    call->kind = (uint8_t)number(session, line->word[2], UINT8_MAX);
    call->number = (uint8_t)number(session, line->word[3], UINT8_MAX);
    call->value = (uint8_t)number(session, line->word[4], UINT8_MAX);
    call->amount = (uint32_t)number(session, line->word[5], UINT32_MAX);
    call->set = number(session, line->word[6], UINT64_MAX);
}

/* kind=, value=, amount=, set=, or the bare number right behind the name */
static void take_field(const struct session *session, const struct line *line,
                       int at, struct call *call)
{
    const char *word = line->word[at];
    const char *text;
    if ((text = behind(word, "kind")) != NULL) {
        call->kind = (uint8_t)number(session, text, UINT8_MAX);
    } else if ((text = behind(word, "value")) != NULL) {
        call->value = (uint8_t)number(session, text, UINT8_MAX);
    } else if ((text = behind(word, "amount")) != NULL) {
        call->amount = (uint32_t)number(session, text, UINT32_MAX);
    } else if ((text = behind(word, "set")) != NULL) {
        call->set = number(session, text, UINT64_MAX);
    } else if (at == 1) {
        call->number = (uint8_t)number(session, word, UINT8_MAX);
    } else {
        refuse(session, "unknown field of a call");
    }
}

/* NAME [NUMBER] [kind=K] [value=V] [amount=A] [set=S] */
static void take_named(const struct session *session, const struct line *line,
                       struct call *call)
{
    for (int code = 0; code < CODES; code++) {
        const char *name = code_table[code].name;
        if (name != NULL && strcmp(line->word[0], name) == 0) {
            call->code = (uint8_t)code;
            for (int at = 1; at < line->count; at++) {
                take_field(session, line, at, call);
            }
            return;
        }
    }
    refuse(session, "unknown word");
}

/* bytes B B B, one to fifteen, the short last call */
static void take_bytes(struct session *session, const struct line *line)
{
    if (line->count < 2 || line->count > CALL_LENGTH) {
        refuse(session, "a short call has 1 to 15 bytes");
    }
    for (int i = 1; i < line->count; i++) {
        putchar((int)number(session, line->word[i], UINT8_MAX));
    }
    session->ended = 1;
}

/* One line that isn't empty. */
static void take_line(struct session *session, const struct line *line)
{
    struct call call = {0, 0, 0, 0, 0, 0};
    uint8_t bytes[CALL_LENGTH];
    if (session->ended) {
        refuse(session, "nothing comes behind a short call");
    }
    if (take_image_line(session, line)) {
        return;
    }
    if (session->cut < IMAGE_LENGTH) {
        refuse(session, "a cut image has no calls behind it");
    }
    write_image(session);
    if (strcmp(line->word[0], "bytes") == 0) {
        take_bytes(session, line);
        return;
    }
    if (strcmp(line->word[0], "raw") == 0) {
        take_raw(session, line, &call);
    } else {
        take_named(session, line, &call);
    }
    call_put(&call, bytes);
    fwrite(bytes, 1, CALL_LENGTH, stdout);
}

/* Cut the text into words; what follows `#` is for the reader. */
static void split(const struct session *session, char *text, struct line *line)
{
    text[strcspn(text, "#\n")] = '\0';
    line->count = 0;
    for (char *word = strtok(text, " \t"); word != NULL;
         word = strtok(NULL, " \t")) {
        if (line->count == WORDS_MOST) {
            refuse(session, "too many words");
        }
        line->word[line->count] = word;
        line->count++;
    }
}

/* The whole text. */
int main(void)
{
    struct session session;
    char text[LINE_ROOM];
    struct line line;
    memset(&session, 0, sizeof session);
    session.cut = IMAGE_LENGTH;
    while (fgets(text, LINE_ROOM, stdin) != NULL) {
        session.line++;
        if (strchr(text, '\n') == NULL && !feof(stdin)) {
            refuse(&session, "line too long, or not text");
        }
        split(&session, text, &line);
        if (line.count > 0) {
            take_line(&session, &line);
        }
    }
    write_image(&session);
    if (fflush(stdout) != 0 || ferror(stdout)) {
        fprintf(stderr, "compose: the bytes cannot be written\n");
        return 2;
    }
    return 0;
}
