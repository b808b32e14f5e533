/* Reads an image. The first fault of bytes that are none is reported, with its place, as `cmmc run` does. */
#include "runtime.h"

#include <stdarg.h>
#include <stdio.h>
#include <stdlib.h>
#include <string.h>

enum { TABLE_LIMIT = 67108864, CODE_LIMIT = 268369920, DATA_LIMIT = 16777216, FIRST_RETURN = 20 };

_Noreturn void refuse(int status, const char *form, ...) {
    va_list rest;
    va_start(rest, form);
    fflush(stdout);
    fputs("runtime: ", stderr);
    vfprintf(stderr, form, rest);
    fputc('\n', stderr);
    va_end(rest);
    exit(status);
}

void *memory(size_t count, size_t bytes) {
    void *found = calloc(count + 1, bytes);
    if (found == NULL) refuse(9, "no memory");
    return found;
}

bool is_name(const struct name *name, const char *text, size_t length) {
    return name->length == length && memcmp(name->bytes, text, length) == 0;
}

/* ---- bytes, front to back */

struct reader {
    const uint8_t *bytes;
    size_t length, at;
    size_t end; /* of the section's body */
};

_Noreturn static void truncated(const struct reader *r) { refuse(4, "G1 Truncated at %zu", r->length); }
_Noreturn static void bad_table(size_t at) { refuse(4, "G5 Table at %zu", at); }

static uint32_t number(const uint8_t *bytes, unsigned width) {
    uint32_t value = 0;
    for (unsigned i = 0; i < width; i++) value |= (uint32_t)bytes[i] << (8 * i);
    return value;
}

/* Bytes outside all bodies: the input may end before them. */
static const uint8_t *outer(struct reader *r, size_t bytes) {
    if (r->length - r->at < bytes) truncated(r);
    r->at += bytes;
    return r->bytes + r->at - bytes;
}

/* A field of a body. */
static const uint8_t *field(struct reader *r, size_t bytes) {
    if (r->end - r->at < bytes) bad_table(r->at);
    r->at += bytes;
    return r->bytes + r->at - bytes;
}

static uint8_t u8(struct reader *r) { return *field(r, 1); }
static uint32_t u32(struct reader *r) { return number(field(r, 4), 4); }

/* Whether the field that was just read, of so many bytes, keeps its rule. */
static void want(const struct reader *r, size_t bytes, bool kept) {
    if (!kept) bad_table(r->at - bytes);
}

/* ---- rows that differ */

/* A set of byte strings, each given by its place in the image. */
struct set {
    struct name *slots;
    size_t mask;
};

static struct set new_set(size_t most) {
    size_t room = 2;
    while (room < 2 * most) room *= 2;
    return (struct set){memory(room, sizeof(struct name)), room - 1};
}

static bool insert(struct set *set, struct name name) {
    uint64_t hash = 1469598103934665603u;
    for (size_t i = 0; i < name.length; i++) hash = (hash ^ name.bytes[i]) * 1099511628211u;
    size_t at = (hash ^ hash >> 32) & set->mask;
    for (; set->slots[at].bytes != NULL; at = (at + 1) & set->mask)
        if (is_name(&set->slots[at], (const char *)name.bytes, name.length)) return false;
    set->slots[at] = name;
    return true;
}

/* A name is one field: whatever is wrong with it stands at its length. */
static struct name read_name(struct reader *r, struct set *names) {
    size_t at = r->at;
    size_t length = number(field(r, 2), 2);
    if (length < 1 || length > 255 || r->end - r->at < length) bad_table(at);
    struct name name = {field(r, length), length};
    for (size_t i = 0; i < length; i++)
        if (name.bytes[i] < 0x21 || name.bytes[i] > 0x7E) bad_table(at);
    if (names != NULL && !insert(names, name)) bad_table(at);
    return name;
}

static const uint8_t *read_types(struct reader *r, uint8_t *count, uint8_t greatest) {
    *count = u8(r);
    want(r, 1, *count <= 16);
    const uint8_t *types = r->bytes + r->at;
    for (unsigned i = 0; i < *count; i++) {
        uint8_t type = u8(r);
        want(r, 1, type <= greatest);
    }
    return types;
}

/* ---- sections */

/* The section's name, the length of its body in bounds, and whether the body is there. */
static uint32_t section(struct reader *r, const char *name, uint64_t least, uint32_t most, uint32_t multiple) {
    size_t at = r->at;
    if (memcmp(outer(r, 4), name, 4) != 0) refuse(4, "G4 Section at %zu", at);
    uint32_t length = number(outer(r, 4), 4);
    if (length < least || length > most || length % multiple != 0) bad_table(r->at - 4);
    if (r->length - r->at < length) truncated(r);
    r->end = r->at + length;
    return length;
}

/* How many rows a table has. No room is made for rows that its body cannot hold. */
static uint32_t rows(struct reader *r, const char *name, size_t least) {
    section(r, name, 0, TABLE_LIMIT, 1);
    uint32_t count = u32(r);
    size_t most = (r->end - r->at) / least + 1;
    return count < most ? count : (uint32_t)most;
}

static void end_table(const struct reader *r) {
    if (r->at != r->end) bad_table(r->at);
}

/* The answer is where the last function ends. Code lies apart and in order, though a function may have no words. */
static uint64_t read_functions(struct reader *r, struct image *image) {
    uint32_t count = rows(r, "FUNC", 17);
    uint64_t end = 0;
    struct set names = new_set(count);
    image->functions = memory(count, sizeof *image->functions);
    for (uint32_t i = 0; i < count; i++) {
        struct function *f = &image->functions[i];
        f->name = read_name(r, &names);
        f->offset = u32(r);
        want(r, 4, f->offset % 4 == 0 && f->offset >= end && (i == 0 || f->offset > f[-1].offset));
        f->words = u32(r);
        uint32_t frame = u32(r);
        want(r, 4, frame % 16 == 0);
        f->types = read_types(r, &f->parameters, ADDR);
        f->result = u8(r);
        want(r, 1, f->result <= NONE && f->result != ADDR);
        end = f->offset + 4 * (uint64_t)f->words;
    }
    image->functions_count = count;
    free(names.slots);
    end_table(r);
    return end;
}

static void read_symbols(struct reader *r, struct image *image) {
    uint32_t count = rows(r, "SYMS", 7), least = 0;
    struct set names = new_set((size_t)count + image->functions_count); /* a symbol is no function either */
    for (uint32_t i = 0; i < image->functions_count; i++) insert(&names, image->functions[i].name);
    image->symbols = memory(count, sizeof *image->symbols);
    for (uint32_t i = 0; i < count; i++) {
        struct symbol *s = &image->symbols[i];
        s->name = read_name(r, &names);
        s->offset = u32(r);
        want(r, 4, s->offset >= least && s->offset <= image->data_bytes);
        least = s->offset;
    }
    image->symbols_count = count;
    free(names.slots);
    end_table(r);
}

static void read_roots(struct reader *r, struct image *image) {
    uint32_t count = rows(r, "ROOT", 4);
    uint64_t least = 0;
    image->roots = memory(count, sizeof *image->roots);
    for (uint32_t i = 0; i < count; i++) {
        uint32_t root = image->roots[i] = u32(r);
        want(r, 4, root % 8 == 0 && root >= least && root + (uint64_t)8 <= image->data_bytes);
        least = root + (uint64_t)8;
    }
    image->roots_count = count;
    end_table(r);
}

static void read_externals(struct reader *r, struct image *image) {
    uint32_t count = rows(r, "EXTC", 5);
    struct set entries = new_set(count);
    image->externals = memory(count, sizeof *image->externals);
    for (uint32_t i = 0; i < count; i++) {
        struct external *e = &image->externals[i];
        size_t at = r->at;
        e->name = read_name(r, NULL);
        e->types = read_types(r, &e->arguments, VAL);
        e->result = u8(r);
        want(r, 1, e->result <= NONE && insert(&entries, (struct name){r->bytes + at, r->at - at}));
    }
    image->externals_count = count;
    free(entries.slots);
    end_table(r);
}

/* Registers come first, as odd entries; then offsets. Each part rises. */
static bool may_follow(uint32_t before, uint32_t entry) {
    return before % 2 == entry % 2 ? before < entry : before % 2 == 1;
}

static bool fits_entry(uint32_t entry, uint32_t size) {
    return entry % 2 == 1 ? entry <= 63 : entry % 8 == 0 && entry < size;
}

static void read_descriptors(struct reader *r, struct image *image) {
    unsigned width = image->version == 1 ? 2 : 4;
    uint32_t count = rows(r, "DESC", 4 + 2 * width);
    uint32_t *entries = memory((r->end - r->at) / width, sizeof *entries), least = FIRST_RETURN;
    image->descriptors = memory(count, sizeof *image->descriptors);
    for (uint32_t i = 0; i < count; i++) {
        struct descriptor *d = &image->descriptors[i];
        d->after = u32(r);
        want(r, 4, d->after % 4 == 0 && d->after >= least && d->after <= image->code_bytes);
        least = d->after + 4;
        d->size = number(field(r, width), width);
        want(r, width, d->size % 16 == 0 && d->size >= 16);
        d->count = number(field(r, width), width);
        d->entries = entries;
        for (uint32_t k = 0; k < d->count; k++) {
            uint32_t entry = number(field(r, width), width);
            want(r, width, fits_entry(entry, d->size) && (k == 0 || may_follow(entries[-1], entry)));
            *entries++ = entry;
        }
    }
    image->descriptors_count = count;
    end_table(r);
}

void read_image(struct image *image, const uint8_t *bytes, size_t length) {
    struct reader r = {bytes, length, 0, 0};
    if (memcmp(outer(&r, 8), "CMMRV64\n", 8) != 0) refuse(4, "G2 Magic at 0");
    image->version = number(outer(&r, 4), 4);
    if (image->version != 1 && image->version != 2) refuse(4, "G3 Version at 8");
    uint64_t functions_end = read_functions(&r, image);
    image->code_bytes = section(&r, "CODE", functions_end > 16 ? functions_end : 16, CODE_LIMIT, 4);
    image->code = outer(&r, image->code_bytes);
    image->data_bytes = section(&r, "DATA", 8, DATA_LIMIT, 1);
    image->data = outer(&r, image->data_bytes);
    read_symbols(&r, image);
    read_roots(&r, image);
    read_externals(&r, image);
    read_descriptors(&r, image);
    if (r.at != r.length) refuse(4, "G6 Trailing at %zu", r.at);
}
