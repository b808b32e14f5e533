/* A runtime for the images of cmmc, on Linux for riscv64: what its parts share.
 *
 *   image.c     reads an image, or refuses it
 *   walk.c      goes up the stack by the frame descriptors and finds the roots
 *   collect.c   knows the blocks of the heap, copies the live ones and frees the others
 *   run.c       maps the places of memory, enters the code, does its services and prints what comes of it
 *   main.c      reads the words
 */
#ifndef RUNTIME_H
#define RUNTIME_H

#include <stdbool.h>
#include <stddef.h>
#include <stdint.h>

/* ---- places of memory: the image's code knows them, so they are fixed */

enum {
    CODE_START = 0x00010000,
    UNCAUGHT_RAISE = CODE_START + 8, /* in the stub, with which all code begins */
    DATA_START = 0x10000000,
    DOMAIN_START = 0x20000000, /* its first word is the limit word */
    DOMAIN_BYTES = 4096,
    HALF_START = 0x30000000,
    HALF_APART = 0x04000000,
    YOUNG_START = 0x38000000,
    YOUNG_TOP = 0x38010000,
    STACK_BOTTOM = 0x3FFFFFF0, /* the stack grows down from here; the bottom trap frame lies above */
    STACK_END = 0x40000000,
    MOST_ROOM = 0x04000000, /* bytes of a half, and of the stack */
};

/* The limit word at rest: code asks for memory where the young area has none left. */
#define LIMIT_AT_REST ((uint64_t)YOUNG_START)
/* The limit word of an ask: every allocation is then below it. */
#define LIMIT_ASKED ((uint64_t)YOUNG_TOP)

/* What is in a register that a call destroys, and in memory that no block has. */
#define FILLER 0x5A5A5A5A5A5A5A5Aul

/* Registers by number, as Linux keeps them for a signal's handler. Place 0 has the program counter there, for x0 needs none. */
enum { PC = 0, RA = 1, SP = 2, T0 = 5, T2 = 7, S1 = 9, A0 = 10, A7 = 17, S10 = 26, S11 = 27, T3 = 28, T6 = 31, REGISTERS = 32 };

static inline uint64_t *word_at(uint64_t address) { return (uint64_t *)(uintptr_t)address; }

/* ---- the image */

enum type { INT, VAL, ADDR, NONE };

struct name {
    const uint8_t *bytes;
    size_t length;
};

struct function {
    struct name name;
    uint32_t offset, words;
    uint8_t parameters;
    const uint8_t *types;
    uint8_t result;
};

struct symbol {
    struct name name;
    uint32_t offset;
};

struct external {
    struct name name;
    uint8_t arguments;
    const uint8_t *types;
    uint8_t result;
};

/* What is known of a frame while a callee of its function runs: `after` is where that callee returns to. */
struct descriptor {
    uint32_t after, size, count;
    const uint32_t *entries;
};

struct image {
    uint32_t version;
    uint32_t code_bytes, data_bytes;
    const uint8_t *code, *data;
    uint32_t functions_count, symbols_count, roots_count, externals_count, descriptors_count;
    struct function *functions;
    struct symbol *symbols;
    uint32_t *roots;
    struct external *externals;
    struct descriptor *descriptors;
};

/* Prints one line on standard error, and ends the program with this status. */
_Noreturn void refuse(int status, const char *form, ...) __attribute__((format(printf, 2, 3)));

void *memory(size_t count, size_t bytes);
void read_image(struct image *image, const uint8_t *bytes, size_t length);
bool is_name(const struct name *name, const char *text, size_t length);

/* ---- how a run ends */

enum end {
    GOES_ON,
    RETURNED,
    RAISED,
    ASKS,
    STACK_OUT,
    HEAP_OUT,
    BAD_FETCH,
    BAD_WORD,
    BAD_ACCESS,
    BAD_SERVICE,
    BAD_REQUEST,
    BAD_FRAME,
    BAD_ROOT,
};

/* ---- roots */

/* The places that hold a live pointer: named registers and slots. */
struct roots {
    uint64_t **at;
    size_t count, room;
};

bool walk(const struct image *image, uint64_t stack_base, uint64_t *registers, struct roots *roots);

/* ---- the heap */

/* A part of memory where blocks may lie. For each word it is known whether a block's header lies there, and of which block. */
struct space {
    uint64_t start, bytes;
    uint64_t *blocks;
};

struct heap {
    struct space halves[2], young;
    unsigned current; /* the half in which the old blocks lie */
    uint64_t used;    /* its bytes that have blocks */
    uint64_t serials; /* how many blocks have a serial: all but those of the young area */
};

void open_heap(struct heap *heap, uint64_t half_bytes);
void empty_heap(struct heap *heap);
bool shown_as_block(const struct heap *heap, uint64_t young_from, uint64_t word, uint64_t *serial);
enum end collect(struct heap *heap, const struct image *image, uint64_t stack_base, uint64_t *registers, uint64_t young_from);

/* ---- a run */

enum moves { MOVES_NONE, MOVES_EVERY, MOVES_TIMER };

struct run {
    const struct image *image;
    const struct function *entry;
    uint64_t arguments[16];
    const uint64_t *answers;
    size_t answers_count;
    uint64_t stack_bytes, heap_bytes;
    enum moves moves;
    long microseconds; /* from one ask of the timer to the next */
};

void open_machine(const struct run *run);
double run_once(const struct run *run);

#endif
