/* Maps the places of memory, enters the code, does the services that it asks for, and prints what comes of it.
 *
 * An ECALL of the image is an EBREAK here, since ECALL is Linux's. The signal that an EBREAK brings is the service: its handler
 * finds all registers of the image, changes what the service changes, and lets the code go on from there. Entering and leaving
 * the code is done in the same way: `run_once` executes an EBREAK of its own, and the handler puts the machine's registers in
 * place of C's; when the run has ended, it puts C's back. */
#define _GNU_SOURCE
#include "runtime.h"

#include <inttypes.h>
#include <signal.h>
#include <stdio.h>
#include <string.h>
#include <sys/mman.h>
#include <sys/time.h>
#include <time.h>
#include <ucontext.h>

enum { ECALL = 0x00000073, EBREAK = 0x00100073, NO_INSTRUCTION = 0, PAGE = 4096, LINE = 1024 };

static struct {
    const struct run *run;
    struct heap heap;
    bool running;
    uint64_t c_registers[REGISTERS]; /* while the code runs */
    size_t answered;
} machine;

static uint64_t stack_base(void) { return STACK_BOTTOM - machine.run->stack_bytes; }

/* ---- the limit word: code asks for memory where s10 is below it */

static void set_limit(uint64_t limit) { *(volatile uint64_t *)word_at(DOMAIN_START) = limit; }

static void end_asking(void) { set_limit(machine.run->moves == MOVES_EVERY ? LIMIT_ASKED : LIMIT_AT_REST); }

static void set_timer(long microseconds) {
    struct itimerval timer = {{0, microseconds}, {0, microseconds}};
    setitimer(ITIMER_REAL, &timer, NULL);
}

/* ---- what is printed */

static void put_word(char *line, enum type type, uint64_t word, const uint64_t *registers) {
    uint64_t serial;
    size_t at = strlen(line);
    if (type == VAL && shown_as_block(&machine.heap, registers[S10], word, &serial))
        snprintf(line + at, LINE - at, " block %" PRIu64, serial);
    else
        snprintf(line + at, LINE - at, " %" PRId64, (int64_t)word);
}

/* A call's name and arguments. They are in a0 to a7 and s2 to s9, which are one after the other. */
static void put_call(char *line, const struct external *e, const uint64_t *registers) {
    snprintf(line, LINE, "%.*s", (int)e->name.length, (const char *)e->name.bytes);
    for (unsigned i = 0; i < e->arguments; i++) put_word(line, e->types[i], registers[A0 + i], registers);
}

static void print_end(enum end end, const uint64_t *registers) {
    static const char *const text[] = {
        [RETURNED] = "returned",
        [RAISED] = "raised",
        [STACK_OUT] = "stack out",
        [HEAP_OUT] = "heap out",
        [BAD_FETCH] = "stopped BadFetch",
        [BAD_WORD] = "stopped BadWord",
        [BAD_ACCESS] = "stopped BadAccess",
        [BAD_SERVICE] = "stopped BadService",
        [BAD_REQUEST] = "stopped BadRequest",
        [BAD_FRAME] = "stopped BadFrame",
        [BAD_ROOT] = "stopped BadRoot",
    };
    char value[LINE] = "";
    enum type type = end == RAISED ? VAL : end == RETURNED ? machine.run->entry->result : NONE;
    if (type != NONE) put_word(value, type, registers[A0], registers);
    if (end != ASKS) printf("%s%s\n", text[end], value); /* the call that got no answer has been printed */
}

/* ---- services */

static enum end allocation(uint64_t *registers) {
    uint64_t bytes = registers[T0];
    if (bytes % 8 != 0 || bytes < 16 || bytes > 2056) return BAD_REQUEST;
    /* The code has taken the bytes off s10 before it asked, and nothing lies in them yet. */
    enum end end = collect(&machine.heap, machine.run->image, stack_base(), registers, registers[S10] + bytes);
    if (end != GOES_ON) return end;
    registers[S10] = YOUNG_TOP - bytes;
    end_asking();
    registers[PC] += 4;
    return GOES_ON;
}

static size_t answers_left(void) { return machine.run->answers_count - machine.answered; }
static uint64_t next_answer(void) { return machine.run->answers[machine.answered++]; }

static enum end asks(const char *call) {
    printf("asks %s\n", call);
    return ASKS;
}

/* An external call may use a0 to a7 and t3 to t6 as it likes. */
static void call_made(const char *call, uint64_t *registers) {
    printf("call %s\n", call);
    for (int r = A0; r <= A7; r++) registers[r] = FILLER;
    for (int r = T3; r <= T6; r++) registers[r] = FILLER;
}

static enum end external_call(const struct external *e, uint64_t *registers) {
    char call[LINE];
    put_call(call, e, registers);
    if (e->result != NONE && answers_left() < 1) return asks(call);
    call_made(call, registers);
    if (e->result != NONE) registers[A0] = next_answer();
    registers[PC] += 4;
    return GOES_ON;
}

static bool has_trap_frame(uint64_t at) { return at % 8 == 0 && at >= stack_base() && at <= STACK_END - 16; }

/* A raise takes the trap frame at s1 off the stack, and goes on at the handler that it names. */
static void raise_value(uint64_t value, uint64_t *registers) {
    const uint64_t *trap = word_at(registers[S1]);
    registers[SP] = registers[S1] + 16;
    registers[PC] = trap[0];
    registers[S1] = trap[1];
    registers[A0] = value;
}

/* An external call at which blocks may move, and which may raise. It takes two answers: where the first is 0 the second is its
 * value, else the second is raised. */
static enum end frame_call(const struct external *e, uint64_t *registers) {
    char call[LINE];
    put_call(call, e, registers); /* now: a block that only the call has is freed below */
    if (answers_left() < 2) return asks(call);
    enum end end = collect(&machine.heap, machine.run->image, stack_base(), registers, registers[S10]);
    if (end != GOES_ON) return end;
    uint64_t raises = next_answer(), value = next_answer();
    if (raises && !has_trap_frame(registers[S1])) return BAD_FRAME;
    registers[S10] = YOUNG_TOP;
    end_asking();
    call_made(call, registers);
    if (raises) {
        raise_value(value, registers);
    } else {
        if (e->result != NONE) registers[A0] = value;
        registers[PC] += 4;
    }
    return GOES_ON;
}

/* What a service is, is in t2; its number or bytes are in t0. */
static enum end serve(uint64_t *registers) {
    const struct image *image = machine.run->image;
    uint64_t service = registers[T2], number = registers[T0];
    if (service == 0) return RETURNED;
    if (service == 1) return RAISED;
    if (service == 3) return allocation(registers);
    if ((service != 2 && service != 4) || number >= image->externals_count) return BAD_SERVICE;
    const struct external *e = &image->externals[number];
    return service == 2 ? external_call(e, registers) : frame_call(e, registers);
}

/* ---- signals */

static bool is_in_code(uint64_t address) { return address - CODE_START < machine.run->image->code_bytes; }

static enum end fault(int signal_number, const uint64_t *registers) {
    if (!is_in_code(registers[PC]) || registers[PC] % 4 != 0) return BAD_FETCH;
    return signal_number == SIGILL ? BAD_WORD : BAD_ACCESS;
}

static void begin(uint64_t *registers) {
    const struct run *run = machine.run;
    memcpy(machine.c_registers, registers, sizeof machine.c_registers);
    memset(registers, 0, sizeof machine.c_registers);
    registers[PC] = CODE_START + (uint64_t)run->entry->offset;
    registers[RA] = CODE_START;
    registers[SP] = registers[S1] = STACK_BOTTOM;
    registers[S10] = YOUNG_TOP;
    registers[S11] = DOMAIN_START;
    for (unsigned i = 0; i < run->entry->parameters; i++) registers[A0 + i] = run->arguments[i];
    machine.running = true;
}

static void finish(enum end end, uint64_t *registers) {
    machine.running = false;
    print_end(end, registers);
    memcpy(registers, machine.c_registers, sizeof machine.c_registers);
    registers[PC] += 4;
}

/* While the code runs, C's functions are never under way, so a handler may call what it likes. The timer's signal is the only
 * one that may come at any place, and it does no more than set the limit word. */
__attribute__((used)) static void on_signal(int signal_number, siginfo_t *info, void *context) {
    uint64_t *registers = (uint64_t *)((ucontext_t *)context)->uc_mcontext.__gregs;
    (void)info;
    if (signal_number == SIGALRM) {
        set_limit(LIMIT_ASKED);
    } else if (machine.running) {
        enum end end = registers[SP] < stack_base() ? STACK_OUT
                     : signal_number == SIGTRAP     ? serve(registers)
                                                    : fault(signal_number, registers);
        if (end != GOES_ON) finish(end, registers);
    } else if (signal_number == SIGTRAP) {
        begin(registers);
    } else {
        signal(signal_number, SIG_DFL); /* a fault of the runtime's own */
    }
}

/* In the image gp and tp are registers like all others. C wants its own in them before its first function runs. */
__attribute__((used)) static uint64_t c_thread_pointer;
void signal_entry(int, siginfo_t *, void *);
asm(".text\n"
    ".type signal_entry, @function\n"
    "signal_entry:\n"
    "  .option push\n"
    "  .option norelax\n"
    "  la gp, __global_pointer$\n"
    "  .option pop\n"
    "  ld tp, c_thread_pointer\n"
    "  tail on_signal\n");

static void catch_signals(void) {
    static const int caught[] = {SIGTRAP, SIGSEGV, SIGBUS, SIGILL, SIGALRM};
    static char room[1 << 16];
    stack_t stack = {.ss_sp = room, .ss_size = sizeof room};
    struct sigaction action = {.sa_sigaction = signal_entry, .sa_flags = SA_SIGINFO | SA_ONSTACK | SA_RESTART};
    asm volatile("mv %0, tp" : "=r"(c_thread_pointer));
    sigemptyset(&action.sa_mask);
    sigaddset(&action.sa_mask, SIGALRM); /* an ask may come before or after a service, not inside */
    sigaltstack(&stack, NULL);           /* the image's stack may be full */
    for (size_t i = 0; i < sizeof caught / sizeof *caught; i++) sigaction(caught[i], &action, NULL);
}

/* ---- memory */

static void protect(uint64_t start, uint64_t bytes, int protection) {
    uint64_t from = start / PAGE * PAGE, to = (start + bytes + PAGE - 1) / PAGE * PAGE;
    if (bytes != 0 && mprotect(word_at(from), to - from, protection) != 0) refuse(9, "no memory");
}

/* Everything from the code to the stack's end is the image's. What no region has stays closed, so that an access there is a
 * signal. Regions are whole pages here, where the machine is exact to the byte. */
static void map_memory(const struct run *run) {
    void *all = mmap(word_at(CODE_START), STACK_END - CODE_START, PROT_NONE, MAP_PRIVATE | MAP_ANONYMOUS | MAP_NORESERVE, -1, 0);
    if (all != word_at(CODE_START)) refuse(9, "no memory at 0x%x", CODE_START);
    protect(DATA_START, run->image->data_bytes, PROT_READ | PROT_WRITE);
    protect(DOMAIN_START, DOMAIN_BYTES, PROT_READ | PROT_WRITE);
    protect(HALF_START, run->heap_bytes, PROT_READ | PROT_WRITE);
    protect(HALF_START + HALF_APART, run->heap_bytes, PROT_READ | PROT_WRITE);
    protect(YOUNG_START, YOUNG_TOP - YOUNG_START, PROT_READ | PROT_WRITE);
    protect(STACK_BOTTOM - run->stack_bytes, run->stack_bytes + 16, PROT_READ | PROT_WRITE);
}

/* What the machine does not know, an EBREAK, must not pass for a service. */
static uint32_t loaded(uint32_t word) { return word == ECALL ? EBREAK : word == EBREAK ? NO_INSTRUCTION : word; }

static void load_code(const struct image *image) {
    uint32_t *code = (uint32_t *)word_at(CODE_START);
    protect(CODE_START, image->code_bytes, PROT_READ | PROT_WRITE);
    memcpy(code, image->code, image->code_bytes);
    for (uint32_t i = 0; i < image->code_bytes / 4; i++) code[i] = loaded(code[i]);
    protect(CODE_START, image->code_bytes, PROT_READ | PROT_EXEC);
    __builtin___clear_cache((char *)code, (char *)code + image->code_bytes);
}

/* Memory as it is at the start of a run. Below everything on the stack is a trap frame, whose handler is the stub's word for an
 * uncaught raise. */
static void fill_memory(const struct run *run) {
    memcpy(word_at(DATA_START), run->image->data, run->image->data_bytes);
    memset(word_at(DOMAIN_START), 0, DOMAIN_BYTES);
    empty_heap(&machine.heap);
    memset(word_at(stack_base()), 0, run->stack_bytes + 16);
    *word_at(STACK_BOTTOM) = UNCAUGHT_RAISE;
}

void open_machine(const struct run *run) {
    machine.run = run;
    map_memory(run);
    load_code(run->image);
    open_heap(&machine.heap, run->heap_bytes);
    catch_signals();
}

static double now(void) {
    struct timespec time;
    clock_gettime(CLOCK_MONOTONIC, &time);
    return (double)time.tv_sec + 1e-9 * (double)time.tv_nsec;
}

/* The seconds of a run from its start to its end. What comes of it is printed. */
double run_once(const struct run *run) {
    fill_memory(run);
    machine.answered = 0;
    end_asking();
    if (run->moves == MOVES_TIMER) set_timer(run->microseconds);
    double start = now();
    asm volatile(".option push\n.option norvc\nebreak\n.option pop" ::: "memory");
    double seconds = now() - start;
    set_timer(0);
    return seconds;
}
