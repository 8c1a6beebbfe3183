/* The walk of a call through the processor: each instruction that it runs, and each address that it reads or writes, in order.
 *
 * The processor's trap flag is set while the call runs, so that a signal comes after each instruction, with all registers. Which operands of
 * the next instruction lie in memory, the file that tests/operands writes says; their addresses are worked out from the registers. The first
 * walk of a call is kept, and each further one is compared with it while it goes on.
 *
 * Addresses in the twist table are told apart: where a word is read and the eight words of the table lie around it in memory, at that
 * moment, the table's address is what is compared, and the place in it is left out. */
#ifndef WALK_H
#define WALK_H

#include <signal.h>
#include <stdint.h>
#include <stdio.h>
#include <stdlib.h>
#include <string.h>
#include <ucontext.h>

enum { OPERANDS = 3, STEPS_MOST = 1 << 18, TWISTS = 8 };

struct operand {
    int base, index; /* places in `registers`, -1 for none */
    int scale;
    int64_t displacement;
    int word; /* a word is read there, into a register */
};

struct instruction {
    uint64_t at;
    int operands; /* -1: not understood */
    struct operand operand[OPERANDS];
    const char *text;
    int ran;
    int looks_up; /* it read a word of the twist table */
    int varied;   /* and not at the same place of it in two walks that were compared */
};

static struct instruction *program;
static size_t program_length;
static uint32_t *numbers_of; /* by the address, counted from the first one: the instruction's number, plus one */
static uint64_t program_from, program_to;

static void stop(const char *why) {
    printf("FAILED: %s\n", why);
    exit(1);
}

/* The file, as text that ends in a zero byte. */
static char *whole_file(const char *path) {
    FILE *file = fopen(path, "rb");
    if (!file || fseek(file, 0, SEEK_END) != 0) stop("the file of operands cannot be read");
    long length = ftell(file);
    char *text = length < 0 ? NULL : malloc((size_t)length + 1);
    if (!text || fseek(file, 0, SEEK_SET) != 0 || fread(text, 1, (size_t)length, file) != (size_t)length)
        stop("the file of operands cannot be read");
    text[length] = 0;
    fclose(file);
    return text;
}

/* One line of the file, which becomes text of its own. */
static struct instruction instruction_of(char *line) {
    struct instruction i = {0};
    i.at = strtoull(line, &line, 16);
    i.operands = (int)strtol(line, &line, 10);
    if (i.operands > OPERANDS) stop("an instruction has more operands than there is room for");
    for (int o = 0; o < i.operands; o++) {
        struct operand *operand = &i.operand[o];
        operand->base = (int)strtol(line, &line, 10);
        operand->index = (int)strtol(line, &line, 10);
        operand->scale = (int)strtol(line, &line, 10);
        operand->displacement = strtoll(line, &line, 10);
        operand->word = (int)strtol(line, &line, 10);
    }
    i.text = line + 1;
    return i;
}

static void read_program(const char *path) {
    char *text = whole_file(path);
    size_t lines = 0;
    for (char *c = text; *c; c++) lines += *c == '\n';
    program = calloc(lines + 1, sizeof *program);
    if (!program) stop("no memory");
    for (char *line = text, *end; (end = strchr(line, '\n')); line = end + 1) {
        *end = 0;
        struct instruction i = instruction_of(line);
        if (program_length > 0 && i.at <= program_to) stop("the instructions are not in the order of their addresses");
        program_to = i.at;
        program[program_length++] = i;
    }
    if (program_length == 0) stop("the file of operands is empty");
    program_from = program[0].at;
    numbers_of = calloc(program_to - program_from + 1, sizeof *numbers_of);
    if (!numbers_of) stop("no memory");
    for (size_t n = 0; n < program_length; n++) numbers_of[program[n].at - program_from] = (uint32_t)n + 1;
}

/* NULL where the disassembly has no instruction that begins there. */
static struct instruction *instruction_at(uint64_t at) {
    if (at < program_from || at > program_to) return NULL;
    uint32_t number = numbers_of[at - program_from];
    return number ? &program[number - 1] : NULL;
}

/* One step: the instruction that is about to run, the stack pointer, and the addresses of its operands. */
struct step {
    uint64_t at, stack, address[OPERANDS];
    int in_table;   /* an address is in the twist table, and it is the table's that stands here */
    uint64_t place; /* in the table, in bytes */
};

/* How a walk compares with the first one. */
enum outcome { SAME, OTHER_INSTRUCTION, OTHER_ADDRESS, NOT_UNDERSTOOD, TOO_LONG };
static const char *const outcomes[] = {"the same walk", "another instruction", "another address", "an instruction that is not understood",
    "a walk that is too long"};

static struct step first[STEPS_MOST];
static size_t first_length;
static uint64_t steps_walked, addresses_compared, places_varied; /* in all walks */

/* The walk that is under way. */
static struct {
    int is_first;
    size_t length;
    enum outcome outcome;
    uint64_t at; /* where it first was not the same */
} walk;

static uint64_t address_of(const struct operand *o, const greg_t *values) {
    static const int registers[] = {REG_RAX, REG_RCX, REG_RDX, REG_RBX, REG_RSP, REG_RBP, REG_RSI, REG_RDI, REG_R8, REG_R9, REG_R10,
        REG_R11, REG_R12, REG_R13, REG_R14, REG_R15};
    uint64_t address = (uint64_t)o->displacement;
    if (o->base >= 0) address += (uint64_t)values[registers[o->base]];
    if (o->index >= 0) address += (uint64_t)values[registers[o->index]] * (uint64_t)o->scale;
    return address;
}

static const uint32_t twists[TWISTS] = {0x00000000, 0x3b6e20c8, 0x76dc4190, 0x4db26158, 0xedb88320, 0xd6d6a3e8, 0x9b64c2b0, 0xa00ae278};

static uint32_t word_at(uint64_t address) {
    uint32_t word;
    memcpy(&word, (const void *)(uintptr_t)address, sizeof word);
    return word;
}

/* The start of the twist table that has an entry at this address; 0 where the word there is none. */
static uint64_t table_around(uint64_t address) {
    uint32_t word = word_at(address);
    for (unsigned entry = 0; entry < TWISTS; entry++) {
        if (word != twists[entry]) continue;
        uint64_t start = address - 4 * entry;
        for (unsigned other = 0; other < TWISTS; other++)
            if (word_at(start + 4 * other) != twists[other]) return 0;
        return start;
    }
    return 0;
}

static struct step step_of(struct instruction *i, const greg_t *values) {
    struct step s = {.at = i->at, .stack = (uint64_t)values[REG_RSP]};
    for (int o = 0; o < i->operands; o++) {
        uint64_t address = address_of(&i->operand[o], values);
        uint64_t table = i->operand[o].word ? table_around(address) : 0;
        s.address[o] = table ? table : address;
        if (!table) continue;
        s.place = address - table;
        s.in_table = i->looks_up = 1;
    }
    return s;
}

static void went_wrong(enum outcome outcome, uint64_t at) {
    walk.outcome = outcome;
    walk.at = at;
}

static void compare(const struct step *was, const struct step *is, struct instruction *i) {
    if (is->at != was->at) {
        went_wrong(OTHER_INSTRUCTION, is->at);
    } else if (is->stack != was->stack || is->in_table != was->in_table || memcmp(is->address, was->address, sizeof is->address) != 0) {
        went_wrong(OTHER_ADDRESS, is->at);
    } else if (is->place != was->place) {
        i->varied = 1;
        places_varied++;
    }
    addresses_compared += (uint64_t)i->operands;
}

/* An emulator may not align the stack of a handler as the ABI has it. */
__attribute__((force_align_arg_pointer)) static void on_step(int signal, siginfo_t *info, void *context) {
    (void)signal, (void)info;
    const greg_t *values = ((const ucontext_t *)context)->uc_mcontext.gregs;
    uint64_t at = (uint64_t)values[REG_RIP];
    steps_walked++;
    if (walk.outcome != SAME) return;
    struct instruction *i = instruction_at(at);
    if (!i || i->operands < 0) {
        went_wrong(NOT_UNDERSTOOD, at);
        return;
    }
    i->ran = 1;
    struct step s = step_of(i, values);
    if (walk.length == (walk.is_first ? STEPS_MOST : first_length)) {
        went_wrong(walk.is_first ? TOO_LONG : OTHER_INSTRUCTION, at);
        return;
    }
    if (walk.is_first) first[walk.length] = s;
    else compare(&first[walk.length], &s, i);
    walk.length++;
}

/* The stack pointer is moved out of the way first: below it may lie what the function around this has there. */
#define WITH_FLAGS(change) \
    __asm__ volatile("lea -128(%%rsp), %%rsp\n\tpushfq\n\t" change "\n\tpopfq\n\tlea 128(%%rsp), %%rsp" ::: "memory", "cc")

__attribute__((noinline)) static void by_steps(void (*call)(void)) {
    WITH_FLAGS("orq $0x100, (%%rsp)");
    call();
    WITH_FLAGS("andq $~0x100, (%%rsp)");
}

/* Makes the call by steps. What it is compared with is the last one that was a first one: both are to be made from the same line of the test, so
   that the stack is equally deep. */
__attribute__((noinline, noclone)) static enum outcome walked(void (*call)(void), int is_first) {
    struct sigaction each_step = {0};
    each_step.sa_sigaction = on_step;
    each_step.sa_flags = SA_SIGINFO;
    if (sigaction(SIGTRAP, &each_step, NULL) != 0) stop("no signal can be had at each step");
    walk.is_first = is_first;
    walk.length = 0;
    walk.outcome = SAME;
    by_steps(call);
    if (walk.length == 0 && walk.outcome == SAME) stop("no step was seen: the trap flag does nothing here");
    if (is_first) first_length = walk.length;
    else if (walk.outcome == SAME && walk.length != first_length) went_wrong(OTHER_INSTRUCTION, first[walk.length].at);
    return walk.outcome;
}

/* What was counted so far is not to be counted. */
static void forget_walks(void) {
    for (size_t n = 0; n < program_length; n++) program[n].ran = program[n].looks_up = program[n].varied = 0;
    steps_walked = addresses_compared = places_varied = 0;
}

/* Where a walk first was not the same, to be read. */
static const char *whereabouts(void) {
    static char words[160];
    const struct instruction *i = instruction_at(walk.at);
    snprintf(words, sizeof words, "step %zu, %#llx %s", walk.length, (unsigned long long)walk.at, i ? i->text : "not in the disassembly");
    return words;
}

#endif
