/* The walk up the stack: the frames of all functions that have not returned, and the roots that they hold. */
#include "runtime.h"

#include <stdlib.h>

/* The descriptor of a return address. Descriptors stand in the image in the order of their addresses. */
static const struct descriptor *descriptor_of(const struct image *image, uint64_t address) {
    size_t low = 0, high = image->descriptors_count;
    while (low < high) {
        size_t middle = low + (high - low) / 2;
        uint64_t after = CODE_START + (uint64_t)image->descriptors[middle].after;
        if (after == address) return &image->descriptors[middle];
        if (after < address) low = middle + 1;
        else high = middle;
    }
    return NULL;
}

static bool is_stack_word(uint64_t stack_base, uint64_t address) {
    return address % 8 == 0 && address >= stack_base && address <= STACK_END - 8;
}

static void add(struct roots *roots, uint64_t *location) {
    if (roots->count == roots->room) {
        roots->room = roots->room == 0 ? 256 : 2 * roots->room;
        roots->at = realloc(roots->at, roots->room * sizeof *roots->at);
        if (roots->at == NULL) refuse(9, "no memory");
    }
    roots->at[roots->count++] = location;
}

/* The locations that a descriptor names, in the frame at this address. An odd entry, 2r + 1, is register r; an even one is an
 * offset from the frame's lowest address. Registers hold values of the innermost frame only: a call destroys them, so that
 * what the callers keep is in their frames. */
static bool add_frame(struct roots *roots, const struct descriptor *d, uint64_t stack_base, uint64_t *registers, uint64_t at,
                      bool innermost) {
    static uint64_t x0; /* reads 0, and no root is 0 */
    for (uint32_t i = 0; i < d->count; i++) {
        uint32_t entry = d->entries[i];
        if (entry % 2 == 1) {
            if (!innermost) return false;
            add(roots, entry / 2 == 0 ? &x0 : &registers[entry / 2]);
        } else {
            if (!is_stack_word(stack_base, at + entry)) return false;
            add(roots, word_at(at + entry));
        }
    }
    return true;
}

/* The walk begins after the ECALL of a service, and ends at the stub, to which the entry returns. A frame's return address lies
 * in its highest 8 bytes, and the caller's frame lies right above it. Handlers need no step of their own: the trap frames
 * that a function has pushed are counted in the descriptor's size, and what only its handler reads is named like all else.
 * The answer is false where the stack has no such form. */
bool walk(const struct image *image, uint64_t stack_base, uint64_t *registers, struct roots *roots) {
    uint64_t address = registers[PC] + 4, at = registers[SP];
    roots->count = 0;
    for (bool innermost = true; address != CODE_START; innermost = false) {
        const struct descriptor *d = descriptor_of(image, address);
        if (d == NULL || !add_frame(roots, d, stack_base, registers, at, innermost)) return false;
        uint64_t return_slot = at + d->size - 8;
        if (!is_stack_word(stack_base, return_slot)) return false;
        address = *word_at(return_slot);
        at += d->size; /* rises by 16 at least, so the walk comes to an end */
    }
    return true;
}
