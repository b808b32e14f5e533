/* The blocks of the heap, and a collector that copies the live ones from one half to the other and frees all others. */
#include "runtime.h"

#include <string.h>

/* What is known of a word of a space: 0, or the block whose header lies there, as its serial and its number of words, or, while
 * a collection goes on, where its copy starts. It is kept apart from the heap, so that no program can spoil it. */
enum { WORDS_BITS = 9, MOST_WORDS = 256, FIRST_UNSCANNED_TAG = 251 };
#define MOVED ((uint64_t)1 << 63)

static uint64_t words_of(uint64_t block) { return block & ((1 << WORDS_BITS) - 1); }
static uint64_t bytes_of(uint64_t block) { return 8 + 8 * words_of(block); }

static void open_space(struct space *space, uint64_t start, uint64_t bytes) {
    *space = (struct space){start, bytes, memory(bytes / 8, sizeof *space->blocks)};
}

void open_heap(struct heap *heap, uint64_t half_bytes) {
    open_space(&heap->halves[0], HALF_START, half_bytes);
    open_space(&heap->halves[1], HALF_START + HALF_APART, half_bytes);
    open_space(&heap->young, YOUNG_START, YOUNG_TOP - YOUNG_START);
}

/* No block is left in these bytes of a space. Filler there shows a pointer that was not rewritten. */
static void vacate(struct space *space, uint64_t from, uint64_t bytes) {
    memset(word_at(space->start + from), 0x5A, bytes);
    memset(space->blocks + from / 8, 0, bytes / 8 * sizeof *space->blocks);
}

void empty_heap(struct heap *heap) {
    vacate(&heap->halves[0], 0, heap->halves[0].bytes);
    vacate(&heap->halves[1], 0, heap->halves[1].bytes);
    vacate(&heap->young, 0, heap->young.bytes);
    heap->current = 0;
    heap->used = 0;
    heap->serials = 0;
}

static uint64_t *block_in(const struct space *space, uint64_t word) {
    uint64_t header = word - 8 - space->start;
    if (word % 8 != 0 || header >= space->bytes) return NULL;
    uint64_t *block = &space->blocks[header / 8];
    return *block == 0 ? NULL : block;
}

/* ---- young blocks: code makes them without asking, and they lie one after the other up to the young area's top */

/* The number of words that a header says, or 0 where no block can begin so. */
static uint64_t young_words(uint64_t header_address) {
    uint64_t words = *word_at(header_address) >> 10;
    return words <= MOST_WORDS && words <= (YOUNG_TOP - 8 - header_address) / 8 ? words : 0;
}

/* How many blocks lie from here to the top, or -1 where it is not whole blocks that lie there. */
static int64_t count_young(uint64_t from) {
    int64_t count = 0;
    if (from % 8 != 0 || from < YOUNG_START || from > YOUNG_TOP) return -1;
    for (uint64_t words; from < YOUNG_TOP; from += 8 + 8 * words, count++)
        if ((words = young_words(from)) == 0) return -1;
    return count;
}

/* The young blocks get their serials. The one at the highest address is the oldest. */
static bool take_young(struct heap *heap, uint64_t from) {
    int64_t count = count_young(from);
    if (count < 0) return false;
    uint64_t serial = heap->serials += (uint64_t)count;
    while (from < YOUNG_TOP) {
        uint64_t block = --serial << WORDS_BITS | young_words(from);
        heap->young.blocks[(from - YOUNG_START) / 8] = block;
        from += bytes_of(block);
    }
    return true;
}

/* ---- what is shown of a word of type val: a block by its place in the order of allocation, or the word itself */

bool shown_as_block(const struct heap *heap, uint64_t young_from, uint64_t word, uint64_t *serial) {
    const uint64_t *old = block_in(&heap->halves[heap->current], word);
    if (old != NULL) {
        *serial = *old >> WORDS_BITS;
        return true;
    }
    int64_t left = count_young(young_from);
    for (uint64_t at = young_from; left > 0; at += 8 + 8 * young_words(at)) {
        left--;
        if (at + 8 == word) {
            *serial = heap->serials + (uint64_t)left;
            return true;
        }
    }
    return false;
}

/* ---- a collection */

struct collection {
    struct heap *heap;
    const struct space *from; /* the half that is left; the young area is left as well */
    struct space *to;
    uint64_t used; /* bytes of `to` that have copies */
    bool full;
};

static uint64_t *block_left(const struct collection *c, uint64_t word) {
    uint64_t *block = block_in(c->from, word);
    return block != NULL ? block : block_in(&c->heap->young, word);
}

/* Copies the block that starts here, and gives the copy's start. */
static uint64_t copied(struct collection *c, uint64_t start, uint64_t block) {
    uint64_t bytes = bytes_of(block), header = c->to->start + c->used;
    if (bytes > c->to->bytes - c->used) {
        c->full = true; /* the run ends, so it does not matter what is done with the others */
        return start;
    }
    for (uint64_t at = 0; at < bytes; at += 8) *word_at(header + at) = *word_at(start - 8 + at);
    c->to->blocks[c->used / 8] = block;
    c->used += bytes;
    return header + 8;
}

/* A location that holds a block's start gets the start of its copy; the first that comes makes the copy. */
static void forward(struct collection *c, uint64_t *location) {
    uint64_t *block = block_left(c, *location);
    if (block == NULL) return;
    if (!(*block & MOVED)) *block = MOVED | copied(c, *location, *block);
    *location = *block & ~MOVED;
}

/* What the copies point at is copied behind them, until the last one points at copies alone. Blocks with a tag from 251 on hold
 * bytes, and no pointer. */
static void scan(struct collection *c) {
    for (uint64_t at = 0; at < c->used && !c->full;) {
        uint64_t block = c->to->blocks[at / 8], *header = word_at(c->to->start + at);
        if ((*header & 0xFF) < FIRST_UNSCANNED_TAG)
            for (uint64_t i = 1; i <= words_of(block); i++) forward(c, &header[i]);
        at += bytes_of(block);
    }
}

/* What a named location may hold: an odd word, a block's start, an address of data (its end included) or of code. */
static bool is_root(const struct collection *c, const struct image *image, uint64_t word) {
    return word % 2 == 1 || block_left(c, word) != NULL
        || (word >= DATA_START && word - DATA_START <= image->data_bytes)
        || (word >= CODE_START && word - CODE_START < image->code_bytes);
}

/* Blocks lie in the young area from here on, and in the current half. Afterwards the live ones lie in the other half, one after
 * the other, and nothing else is left. */
enum end collect(struct heap *heap, const struct image *image, uint64_t stack_base, uint64_t *registers, uint64_t young_from) {
    static struct roots roots;
    struct collection c = {heap, &heap->halves[heap->current], &heap->halves[!heap->current], 0, false};
    if (!take_young(heap, young_from)) return BAD_REQUEST;
    if (!walk(image, stack_base, registers, &roots)) return BAD_FRAME;
    for (size_t i = 0; i < roots.count; i++)
        if (!is_root(&c, image, *roots.at[i])) return BAD_ROOT;
    for (size_t i = 0; i < roots.count; i++) forward(&c, roots.at[i]);
    for (uint32_t i = 0; i < image->roots_count; i++) forward(&c, word_at(DATA_START + image->roots[i]));
    scan(&c);
    if (c.full) return HEAP_OUT;
    vacate(&heap->halves[heap->current], 0, heap->used);
    vacate(&heap->young, young_from - YOUNG_START, YOUNG_TOP - young_from);
    heap->current = !heap->current;
    heap->used = c.used;
    return GOES_ON;
}
