/* What nk.h says that a test in C can see and tests/face.c does not: the calls from C++ (tests/header.cc), how an answer comes back, and a
 * record that lies where it cannot be written. tests/header builds and runs it. */
#define _DEFAULT_SOURCE
#include <setjmp.h>
#include <signal.h>
#include <stdio.h>
#include <stdlib.h>
#include <string.h>
#include <sys/mman.h>

#include "../include/nk.h"
#include "groups.h"

#ifdef WITH_CXX
unsigned faults_from_cxx(void);

static void from_cxx(void) {
    begin("the calls from C++");
    unsigned cxx_faults = faults_from_cxx();
    check(cxx_faults == 0, "%u calls answered otherwise than in C", cxx_faults);
    end();
}
#endif

enum { PAGE = 4096, PAGES = ((int)sizeof(struct nk_keeper) + PAGE - 1) / PAGE * PAGE, ROOM = 5000 };
static sigjmp_buf back;
static struct nk_keeper *k;
static uint8_t bytes[ROOM];

#if defined __x86_64__
/* An answer has more bytes than come back in registers: the ABI has the caller hand over the address of a place for it, before all else,
 * and the call give that address back. These types say so in the open, so that the place can lie between guards. They are not the calls'
 * own, and volatile keeps the compiler from seeing it. */
typedef struct nk_answer *feeding(struct nk_answer *, struct nk_keeper *, const uint8_t *, size_t);
typedef struct nk_answer *happening(struct nk_answer *, struct nk_keeper *, uint32_t, uint32_t, uint64_t, uint32_t);
typedef struct nk_answer *interrupting(struct nk_answer *, struct nk_keeper *, uint32_t, uint32_t, uint64_t, uint64_t);
typedef struct nk_answer *seeding(struct nk_answer *, struct nk_keeper *, uint32_t, const uint8_t *, size_t, uint32_t);
typedef struct nk_answer *reading(struct nk_answer *, struct nk_keeper *, uint32_t, uint8_t *, size_t);
typedef struct nk_answer *blocking(struct nk_answer *, struct nk_keeper *, uint8_t *, size_t);
typedef struct nk_issued *issuing(struct nk_issued *, struct nk_keeper *, struct nk_desk *, uint32_t, const uint8_t *, size_t);
typedef void any(void);
static feeding *volatile make_to = (feeding *)(any *)nk_make, *volatile write_to = (feeding *)(any *)nk_write;
static happening *volatile event_to = (happening *)(any *)nk_event;
static interrupting *volatile interrupt_to = (interrupting *)(any *)nk_interrupt;
static seeding *volatile seed_to = (seeding *)(any *)nk_seed;
static reading *volatile read_to = (reading *)(any *)nk_read;
static blocking *volatile blocking_read_to = (blocking *)(any *)nk_blocking_read;
static issuing *volatile issue_to = (issuing *)(any *)nk_issue;

static struct nk_answer *answer_to(struct nk_answer *to, struct nk_keeper *own, int which) {
    switch (which) {
    case 0: return make_to(to, own, bytes, NK_START_LENGTH);
    case 1: return event_to(to, own, 1, 5000, 1, 1);
    case 2: return interrupt_to(to, own, 5000, 1, 1, 1);
    case 3: return write_to(to, own, bytes, 4);
    case 4: return seed_to(to, own, 5000, bytes, 512, 4096);
    case 5: return read_to(to, own, 5000, bytes, 32);
    default: return blocking_read_to(to, own, bytes, 16);
    }
}
enum { ANSWERS = 7, GUARD = 64 };

/* A number comes back as an answer does, behind it: one that is issued, and one for each refusal. The keeper is seeded. */
static void number_through_memory(size_t at, struct nk_keeper *own) {
    static _Alignas(16) uint8_t lent[GUARD + 16 + sizeof(struct nk_issued) + GUARD], expected[sizeof lent];
    static const uint8_t drill = NK_DRILL, other = NK_DRILL + 1;
    static struct nk_keeper copy;
    struct nk_desk desk;
    struct nk_issued right;
    for (int i = 0; i < 5; i++) {
        copy = *own;
        memset(&desk, 0, sizeof desk);
        memset(&right, 0, sizeof right);
        if (i == 0) {
            right.answer = (struct nk_answer){NK_DONE, NK_NUMBER_LENGTH, 1, 0, 0};
            right.number[0] = drill;
            check(nk_read(&copy, 5000, right.number + 1, NK_NUMBER_LENGTH - 1).number == NK_DONE, "a read is refused");
            copy = *own;
        }
        if (i == 1) right.answer.number = NK_NO_SUCH_CLASS;
        if (i == 2) copy.ledger.seeding.mark = 0, right.answer.number = NK_UNSEEDED;
        if (i == 3) desk.count = 65, right.answer.number = NK_OUT_OF_RANGE;
        if (i == 4) {
            right.answer = (struct nk_answer){NK_ALL_REPEATED, 0, 4, 0, 0};
            for (desk.count = 0; desk.count < 4; desk.count++) {
                desk.numbers[desk.count][0] = drill;
                check(nk_read(&copy, 5000, desk.numbers[desk.count] + 1, NK_NUMBER_LENGTH - 1).number == NK_DONE, "a read is refused");
            }
            copy = *own;
        }
        memset(lent, 0xb5, sizeof lent);
        memset(expected, 0xb5, sizeof expected);
        memcpy(expected + at, &right, sizeof right);
        struct nk_issued *to = (struct nk_issued *)(void *)(lent + at);
        check(issue_to(to, &copy, &desk, 5000, i == 1 ? &other : &drill, 1) == to, "issue %d: another address comes back", i);
        check(memcmp(lent, expected, sizeof lent) == 0, "issue %d: another answer or number, or something beside it", i);
    }
}

static void through_memory(void) {
    begin("an answer is written where the caller said, with nothing beside it, and its address comes back");
    static const struct nk_answer done[ANSWERS] = {{NK_DONE, 0, 0, 0, 0}, {NK_DONE, 0, 0, 0, 0}, {NK_DONE, 0, 0, 0, 6},
        {NK_DONE, 0, 0, 0, 0}, {NK_DONE, 0, 0, 32, 19963}, {NK_DONE, 32, 1, 0, 0}, {NK_DONE, 12, 0, 20, 768}};
    static const struct nk_answer refused = {NK_OUT_OF_RANGE, 0, 0, 0, 0};
    static _Alignas(16) uint8_t lent[GUARD + 16 + sizeof(struct nk_answer) + GUARD], expected[sizeof lent];
    static struct nk_keeper own;
    for (size_t at = GUARD; at < GUARD + 16; at += _Alignof(struct nk_answer))
        for (int damaged = 0; damaged < 2; damaged++)
            for (int i = 0; i < ANSWERS; i++) {
                memset(lent, 0xb5, sizeof lent);
                memset(expected, 0xb5, sizeof expected);
                memcpy(expected + at, damaged && i > 0 ? &refused : &done[i], sizeof refused);
                struct nk_answer *to = (struct nk_answer *)(void *)(lent + at);
                check(answer_to(to, &own, i) == to, "call %d, damaged %d: another address comes back", i, damaged);
                check(memcmp(lent, expected, sizeof lent) == 0, "call %d, damaged %d: another answer, or something beside it", i, damaged);
                if (!damaged && i == ANSWERS - 1) number_through_memory(at, &own);
                if (damaged) own.ledger.spill.tally = 64;
            }
    end();
}
#endif

static void fault(int signal) {
    (void)signal;
    siglongjmp(back, 1);
}

/* A call for each refusal, and the calls that are done and change nothing. */
static struct nk_answer call(int which) {
    static const uint8_t live = NK_LIVE;
    static struct nk_desk desk;
    switch (which) {
    case 0: return nk_make(k, bytes, 47);
    case 1: return nk_event(k, 1024, 1, 1, 1);
    case 2: return nk_event(k, 0, 1, 1, 0);
    case 3: return nk_write(k, bytes, 4097);
    case 4: return nk_seed(k, 1, bytes, 4097, 0);
    case 5: return nk_seed(k, 1, bytes, 1, 9);
    case 6: return nk_read(k, 1, bytes, 4097);
    case 7: return nk_read(k, 1, bytes, 4);
    case 8: return nk_read(k, 1, bytes, 0);
    case 9: return nk_blocking_read(k, bytes, 4097);
    case 10: return nk_blocking_read(k, bytes, 4);
    case 11: return nk_blocking_read(k, bytes, 0);
    case 12: return nk_write(k, bytes, 0);
    case 13: return nk_issue(k, &desk, 1, bytes, 1).answer;
    case 14: return nk_issue(k, &desk, 1, &live, 1).answer;
    default: return nk_interrupt(k, 1, 1, 1, 1);
    }
}
enum { CALLS = 16 };

static void read_only(void) {
    begin("a record that cannot be written: a refused call stores into it too");
    static const uint32_t numbers[CALLS] = {6, 4, 7, 3, 3, 5, 3, 2, 0, 3, 1, 0, 0, 13, 2, 0};
    k = mmap(NULL, PAGES, PROT_READ | PROT_WRITE, MAP_PRIVATE | MAP_ANONYMOUS, -1, 0);
    if (k == MAP_FAILED || signal(SIGSEGV, fault) == SIG_ERR) {
        puts("FAILED: no pages, or no handler for them");
        exit(1);
    }
    for (int damaged = 0; damaged < 2; damaged++)
        for (int i = 0; i < CALLS; i++) {
            static struct nk_keeper before;
            mprotect(k, PAGES, PROT_READ | PROT_WRITE);
            check(nk_make(k, bytes, NK_START_LENGTH).number == NK_DONE, "a keeper is not made");
            if (damaged) k->ledger.spill.tally = 64;
            memcpy(&before, k, sizeof before);
            mprotect(k, PAGES, PROT_READ);
            volatile int faulted = sigsetjmp(back, 1);
            if (!faulted) call(i);
            check(faulted, "call %d, damaged %d: nothing was stored, and the header says otherwise", i, damaged);
            check(memcmp(&before, k, sizeof before) == 0, "call %d, damaged %d: the record changed", i, damaged);
            mprotect(k, PAGES, PROT_READ | PROT_WRITE);
            uint32_t number = damaged && i != 0 ? (uint32_t)NK_OUT_OF_RANGE : numbers[i];
            check(call(i).number == number, "call %d, damaged %d: not the answer that is meant", i, damaged);
        }
    end();
}

int main(void) {
#ifdef WITH_CXX
    from_cxx();
#endif
#if defined __x86_64__
    through_memory();
#endif
    read_only();
    return counted();
}
