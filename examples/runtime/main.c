/* Reads the words as `cmmc run` does, then the image, and has the entry run. */
#include "runtime.h"

#include <stdio.h>
#include <stdlib.h>
#include <string.h>

enum { IMAGE_LIMIT = 620691524, BY_DEFAULT = 1048576 };

static const char usage[] = "U1 Words: ENTRY [--args=ITEMS] [--answers=ITEMS] [--moves=none|every|timer:MICROSECONDS] "
                            "[--stack=BYTES] [--heap=BYTES] [--repeat=RUNS] < IMAGE";

_Noreturn static void bad_value(void) { refuse(2, "U2 ValueText"); }
_Noreturn static void unfit(void) { refuse(2, "U4 ArgumentUnfit"); }

/* ---- values of options */

/* Decimal digits up to a character that is none. */
static uint64_t digits(const char **text, uint64_t most) {
    uint64_t number = 0;
    if (**text < '0' || **text > '9') bad_value();
    for (; **text >= '0' && **text <= '9'; (*text)++) {
        uint64_t digit = (uint64_t)(**text - '0');
        if (number > (most - digit) / 10) bad_value();
        number = 10 * number + digit;
    }
    return number;
}

static uint64_t whole(const char *text, uint64_t least, uint64_t most) {
    uint64_t number = digits(&text, most);
    if (*text != 0 || number < least) bad_value();
    return number;
}

static uint64_t room(const char *text) {
    uint64_t bytes = whole(text, 0, MOST_ROOM);
    if (bytes % 16 != 0) bad_value();
    return bytes;
}

/* An argument or an answer: a word, or the name of a data symbol. */
struct item {
    uint64_t word;
    const char *symbol; /* NULL for a word */
    size_t length;
};

struct items {
    struct item *of;
    size_t count;
};

static struct item read_item(const char **text) {
    struct item item = {0, NULL, 0};
    if (**text == '@') {
        item.symbol = ++*text;
        for (; **text > 0x20 && **text < 0x7F && **text != ','; (*text)++) item.length++;
        if (item.length < 1 || item.length > 255) bad_value();
    } else {
        bool negative = **text == '-';
        *text += negative;
        item.word = digits(text, (uint64_t)INT64_MAX + negative);
        if (negative) item.word = -item.word;
    }
    return item;
}

static struct items read_items(const char *text) {
    struct items items = {memory(strlen(text), sizeof(struct item)), 0};
    if (*text == 0) return items;
    for (;; text++) {
        items.of[items.count++] = read_item(&text);
        if (*text == 0) return items;
        if (*text != ',') bad_value();
    }
}

static void check_name(const char *text) {
    size_t length = strlen(text);
    if (length < 1 || length > 255) bad_value();
    for (; *text != 0; text++)
        if (*text < 0x21 || *text > 0x7E) bad_value();
}

/* ---- words */

struct words {
    const char *entry, *args, *answers, *moves, *stack, *heap, *repeat;
};

/* An option is one word, `--name=value`, and comes once at most. */
static bool take_option(const char *word, const char *name, const char **value) {
    size_t length = strlen(name);
    if (strncmp(word, name, length) != 0 || *value != NULL) return false;
    *value = word + length;
    return true;
}

static struct words take_words(int count, char **words) {
    struct words w = {0};
    for (int i = 1; i < count; i++) {
        const char *word = words[i];
        bool taken = word[0] == '-'
            ? take_option(word, "--args=", &w.args) || take_option(word, "--answers=", &w.answers)
              || take_option(word, "--moves=", &w.moves) || take_option(word, "--stack=", &w.stack)
              || take_option(word, "--heap=", &w.heap) || take_option(word, "--repeat=", &w.repeat)
            : take_option(word, "", &w.entry);
        if (!taken) refuse(2, "%s", usage);
    }
    if (w.entry == NULL) refuse(2, "%s", usage);
    return w;
}

static void read_moves(const char *text, struct run *run) {
    if (text == NULL || strcmp(text, "none") == 0) return;
    if (strcmp(text, "every") == 0) {
        run->moves = MOVES_EVERY;
    } else {
        if (strncmp(text, "timer:", 6) != 0) bad_value();
        run->moves = MOVES_TIMER;
        run->microseconds = (long)whole(text + 6, 1, 999999);
    }
}

/* ---- what the words mean for an image */

static const struct function *function_named(const struct image *image, const char *name) {
    for (uint32_t i = 0; i < image->functions_count; i++)
        if (is_name(&image->functions[i].name, name, strlen(name))) return &image->functions[i];
    refuse(2, "U3 UnknownEntry");
}

static uint64_t word_of(const struct image *image, const struct item *item) {
    if (item->symbol == NULL) return item->word;
    for (uint32_t i = 0; i < image->symbols_count; i++)
        if (is_name(&image->symbols[i].name, item->symbol, item->length)) return DATA_START + (uint64_t)image->symbols[i].offset;
    unfit();
}

/* A parameter of type val takes what can be no stale pointer: an odd word, or an address of data. */
static bool takes(const struct image *image, enum type type, uint64_t word) {
    return type != VAL || word % 2 == 1 || (word >= DATA_START && word - DATA_START <= image->data_bytes);
}

static void set_arguments(struct run *run, const struct items *args) {
    if (args->count != run->entry->parameters) unfit();
    for (size_t i = 0; i < args->count; i++) {
        run->arguments[i] = word_of(run->image, &args->of[i]);
        if (!takes(run->image, run->entry->types[i], run->arguments[i])) unfit();
    }
}

static void set_answers(struct run *run, const struct items *answers) {
    uint64_t *words = memory(answers->count, sizeof *words);
    for (size_t i = 0; i < answers->count; i++) words[i] = word_of(run->image, &answers->of[i]);
    run->answers = words;
    run->answers_count = answers->count;
}

/* ---- the image's bytes, and one byte more than any image has at most */

static uint8_t *read_all(size_t *length) {
    size_t held = 1 << 16, got;
    uint8_t *bytes = memory(held, 1);
    *length = 0;
    while ((got = fread(bytes + *length, 1, held - *length, stdin)) != 0) {
        *length += got;
        if (*length > IMAGE_LIMIT) break;
        if (*length == held && (bytes = realloc(bytes, held *= 2)) == NULL) refuse(9, "no memory");
    }
    if (ferror(stdin)) refuse(5, "read fault");
    return bytes;
}

int main(int count, char **words) {
    static struct image image;
    struct words w = take_words(count, words);
    check_name(w.entry);
    struct items args = read_items(w.args ? w.args : ""), answers = read_items(w.answers ? w.answers : "");
    struct run run = {.image = &image};
    run.stack_bytes = w.stack ? room(w.stack) : BY_DEFAULT;
    run.heap_bytes = w.heap ? room(w.heap) : BY_DEFAULT;
    uint64_t runs = w.repeat ? whole(w.repeat, 1, 1000000) : 1;
    read_moves(w.moves, &run);

    size_t length;
    uint8_t *bytes = read_all(&length);
    read_image(&image, bytes, length);
    run.entry = function_named(&image, w.entry);
    set_arguments(&run, &args);
    set_answers(&run, &answers);

    open_machine(&run);
    double best = run_once(&run);
    for (uint64_t i = 1; i < runs; i++) {
        double seconds = run_once(&run);
        if (seconds < best) best = seconds;
    }
    if (w.repeat) fprintf(stderr, "%.6f seconds\n", best);
    return fflush(stdout) == 0 ? 0 : 6;
}
