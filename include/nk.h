/* The noise keeper, as C calls it. docs/HEADER.md says for each sentence what holds it: a proof, a test, or the caller.
 *
 * A keeper is one record, struct nk_keeper, of 22,272 bytes, that the caller owns and lends to each call; the call changes it in place, and
 * copies neither a pool nor the timers. There is no other state: no heap, no globals, nothing to close. nk_make makes a keeper of any memory; the
 * other seven calls work on a keeper that was made. nk_issue is lent a desk beside it, under DESKS below. examples/terminal/ is a terminal
 * built on them.
 *
 * What goes in: device events and interrupts (noise that the keeper credits by its own estimate), writes (noise with no credit) and
 * seeds (noise with the credit that the caller names). What comes out: generator bytes (nk_read), once the keeper has been seeded,
 * message numbers made of them (nk_issue), and bytes of the blocking pool (nk_blocking_read), as far as its credit goes.
 *
 * THE ANSWER. Each call returns five numbers by value, and nk_issue a message number behind them. `number` is NK_DONE or the reason for a
 * refusal. `delivered` is how many bytes a read put at the start of its room, and 16 for a message number that was issued; 0 for all other
 * calls. `blocks` and `compressions` are the ChaCha20 blocks and SHA-1 compressions that this call ran, whatever they were for. They are
 * not its time: mixing and comparing are not counted.
 * `added` is what a credit was worth: by how many eighths of a bit crediting raised a count in this call, before anything was taken from
 * that count again. Events, interrupts and seeds credit the input pool, and a blocking read that brings bytes over credits the blocking
 * pool; all other calls answer 0. Of a call that is done, with `taken` the bytes that it took from the input pool for a seeding or to
 * bring over:
 *   event, interrupt, seed   input count after + 64 x taken = input count before + added
 *   blocking read            blocking count after + 64 x delivered = blocking count before + added
 *
 * REFUSALS. A refused call leaves the record, the desk and the room as they were, to the last byte, and answers 0 for delivered, blocks,
 * compressions and added. (That the four bytes of padding in the record stay is tested and not proved.) There is one exception,
 * NK_ALL_REPEATED: the desk is as it was, but the draws that nk_issue made stay made in the record, and their work is in the answer. Where
 * several reasons hold, the number is the first in the order that stands at the call below. NK_OUT_OF_RANGE comes first everywhere, but for
 * nk_make, which does not look at what the record held.
 *
 * NK_OUT_OF_RANGE says that the record is damaged or was never made, or that the desk is damaged. It is answered exactly if
 *   - a count is above its pool's size (input 32,768, blocking 8,192, in eighths of a bit),
 *   - a position is outside its pool (input 0 to 127, blocking 0 to 31), or a rotation is above 31,
 *   - the tally is above 63,
 *   - one of `firsts` is outside -2^31 to 2^31 - 1, one of `seconds` outside -(2^32 - 1) to 2^32 - 1, or one of `came` above 3,
 *   - one of generator words 0 to 3 is not the cipher's constant,
 *   - at nk_issue, the desk's count is above 64.
 * Every other bit pattern is a keeper in range, or a desk. No record and no desk, whatever its bytes, makes a call do anything undefined.
 * The only cure for a record is nk_make, from start bytes that were never used; for a desk, whose count tells that it is the one, zeroes or
 * a desk that was stored. `seeding.mark` is not part of this test: 1 is seeded, and any other number is read as unseeded. So damage that
 * leaves every field in range is not seen: a count that grew, a mark that became 1, a desk's count that became another one up to 64.
 *
 * DESKS. A desk, struct nk_desk, of 1,028 bytes, is the caller's too, and nk_issue changes it in place: it remembers the last 64 message
 * numbers, so that none of them is issued again. It has how many are remembered, and the numbers, oldest first; the places behind them are
 * free, are compared with nothing, and keep their bytes. Zeroed memory is an empty desk. Any two of the last 65 numbers issued at one desk
 * differ. Drill numbers and live numbers never meet, not even of two desks or two keepers. Beyond that two desks know nothing of one
 * another, and a copy of a desk is a second desk. Nor is anything remembered over a power cut: where it has to be, store the desk after
 * each number and bring it back. The numbers in a desk were handed out, and it is as public as they are: the caller decides.
 *
 * MEMORY. The record wants the alignment of struct nk_keeper, 8 bytes, and a desk that of struct nk_desk, 4; bytes and rooms want none.
 * Record and desk must lie where they can be written: a refused call too stores the ledger back as it found it. No pointer may be null, not
 * even one that comes with a length of 0. A pointer with a length stands for so many bytes, and all of them must be the caller's, also
 * where the length is one that will be refused. Record, desk, room and bytes, a class field among them, must not overlap. A call writes the
 * record, the desk, the delivered bytes of a room and its answer; it reads the bytes that are fed and keeps no pointer once it has returned.
 *
 * COPIES. Two copies of a record hand out the same bytes. Never copy a record, and never let it be copied: no fork, no snapshot, no
 * image of memory that is restored. A record that is no longer used has to be wiped.
 *
 * SECRETS. The words of the pools, of the fast pool and of the generator are secret, but for the generator's four constants: do not
 * print, store or send a record. What a call answers depends on the other fields and on the call's numbers and lengths, and never on a
 * secret word, a stamp, an address or a byte that is fed; at nk_issue also on the desk's count, on the class and on whether a draw repeats,
 * which shows in `blocks` and in NK_ALL_REPEATED. About time nothing is promised. A draw is compared in the same steps wherever an equal
 * number stands: the steps tell that it repeats, and not which number it repeats. A call does not clean up behind itself: after a read
 * of 32 bytes all of them are on the stack below the caller, and so are those that the key was changed by; draws that were thrown away may
 * be there, and registers may hold secrets too. Where that matters, clear NK_STACK_MOST bytes of stack (examples/terminal/forget.c).
 *
 * THREADS. One caller at a time for each record, and for each desk. An interrupt handler must not call the keeper while a call on the same
 * record or desk is under way, not even a call that will be refused: let it leave its numbers for the main loop, or shut interrupts out
 * around each call. Two records have nothing in common, and two desks neither.
 *
 * THE MOST WORK OF ONE CALL, for whoever shuts interrupts out around it. Bytes that are mixed, and numbers that are compared, are the part
 * that `blocks` and `compressions` do not tell; each time a pool is hashed (8 compressions of the input pool, 2 of the blocking pool) 20 more
 * bytes are mixed.
 *   nk_make            no work: the record is stored
 *   nk_event           16 bytes mixed; if it seeds, 32 compressions
 *   nk_interrupt       the same
 *   nk_write           4,096 bytes mixed
 *   nk_seed            4,096 bytes mixed; if it seeds, 32 compressions
 *   nk_read            65 blocks; if it seeds anew, 32 compressions
 *   nk_blocking_read   130 compressions, 128 bytes mixed
 *   nk_issue           4 blocks, each compared with 64 numbers; if it seeds anew, 32 compressions; a desk's numbers moved by one place
 * Each call but nk_make reads the timers of all 1,024 devices first, 17 KB, whether it uses one or none, to tell NK_OUT_OF_RANGE.
 *
 * CLOCKS. `now` is a free-running 32-bit clock of 1,000 ticks a second. It may wrap, and it may run back: a difference of two clocks is
 * taken modulo 2^32 and read as signed, so one of 2^31 ticks or more (24.8 days) reads as a clock that ran back. Then
 *   - no read seeds anew: not while the last seeding was 2^31 to 2^32 + 300,000 ticks ago (24.8 to 49.7 days), and by a clock that did
 *     run back not until it is 300,001 ticks past the last seeding;
 *   - no time makes interrupts spill, but the 64th of them does, and time is counted anew from there.
 *
 * MACHINE. The archive, liblent.a, is for x86-64: little endian, pointers and lengths of 8 bytes, calls as the System V ABI has them: an
 * answer, of 20 bytes, or of 36 with a message number, comes back through memory that the calling compiler sets aside. It links to memcpy,
 * memmove and memset, which a compiler may call, and to nothing else. A call uses at most NK_STACK_MOST bytes of stack and relies on what
 * the ABI gives to a program under an operating system. On a bare controller that is the caller's to set up:
 *   - The stack pointer is a multiple of 16 at the call.
 *   - SSE2 is on before the first call (CR0.EM and CR0.TS clear, CR4.OSFXSR set). AVX is not used.
 *   - The 128 bytes below the stack pointer belong to the call. A processor that takes an interrupt on the same stack writes over
 *     them, so an interrupt that may come during a call needs a stack of its own (an IST entry), or has to be shut out.
 *   - A handler or a change of tasks that uses vector registers saves them first and puts them back. */
#ifndef NK_H
#define NK_H

#include <stddef.h>
#include <stdint.h>

#ifdef __cplusplus
#define NK_HOLDS(fact) static_assert(fact, #fact)
extern "C" {
#else
#define NK_HOLDS(fact) _Static_assert(fact, #fact)
#endif

/* An answer that has to be looked at: the compiler warns where it is not. Who does not look may use bytes that are not there, or count
 * on a seed that was refused. What events, interrupts and writes answer may be passed over: nobody waits for what they bring, and a
 * damaged record shows at the next read. */
#if (defined __cplusplus && __cplusplus >= 201703L) || (defined __STDC_VERSION__ && __STDC_VERSION__ > 201710L)
#define NK_LOOK [[nodiscard]]
#elif defined __GNUC__
#define NK_LOOK __attribute__((warn_unused_result))
#else
#define NK_LOOK
#endif

/* What a call answers. */
enum {
    NK_DONE = 0,
    NK_WOULD_BLOCK = 1,     /* blocking read: neither pool has enough credit. Feed noise, and ask again */
    NK_UNSEEDED = 2,        /* generator read: never seeded so far. Feed noise, or seed */
    NK_TOO_LONG = 3,        /* a length over NK_LENGTH_MOST */
    NK_NO_SUCH_DEVICE = 4,  /* a device over 1,023 */
    NK_CREDIT_TOO_HIGH = 5, /* a seed's credit above 8 bits for each of its bytes */
    NK_START_NOT_48 = 6,    /* a making from another number of bytes than 48 */
    NK_REPEATED = 7,        /* device 0 told the same value again */
    NK_NO_SUCH_CLASS = 13,  /* issue: a class field that is not the one byte NK_DRILL or NK_LIVE */
    NK_ALL_REPEATED = 14,   /* issue: four draws, and the desk remembers each. Chance will not do that; an old record put back may, and its
                               keys come again too: do not ask again, wipe the record, and make a keeper from a new start */
    NK_OUT_OF_RANGE = 17    /* the record is damaged: wipe it, and make a keeper from a new start. Or a desk's count is above 64: zero the
                               desk, or bring back one that was stored */
};

/* The classes of message numbers, each the byte that a number begins with. */
enum {
    NK_DRILL = 0x44,
    NK_LIVE = 0x4c
};

/* Sizes: devices, words of the record's four secret arrays, bytes, and message numbers. */
enum {
    NK_DEVICES = 1024,
    NK_INPUT_WORDS = 128,
    NK_BLOCKING_WORDS = 32,
    NK_FAST_WORDS = 4,
    NK_GENERATOR_WORDS = 16,
    NK_START_LENGTH = 48,
    NK_LENGTH_MOST = 4096, /* of a write, a seed or a read */
    NK_NUMBER_LENGTH = 16, /* of a message number: its class and 15 bytes drawn */
    NK_REMEMBERED = 64,    /* numbers that a desk remembers at most */
    NK_STACK_MOST = 768    /* bytes of stack that a call may use */
};

/* Where a pool's next byte goes: its position and its rotation. */
struct nk_spot {
    uint32_t at;
    uint32_t turn;
};

/* What is public of a pool: its count, credit in eighths of a bit, and where its next byte goes. */
struct nk_gauge {
    uint32_t count;
    struct nk_spot spot;
};

/* Interrupts since the last spill into the input pool, and the clock of that spill. */
struct nk_spill {
    uint32_t tally;
    uint32_t clock;
};

/* Whether the generator was seeded, and the clock of the last seeding. */
struct nk_seeding {
    uint32_t mark; /* 1: seeded, for good; any other number: unseeded */
    uint32_t clock;
};

/* The numbers that decide what a call does. */
struct nk_ledger {
    struct nk_gauge input;
    struct nk_gauge blocking;
    uint32_t value; /* device 0's last value */
    struct nk_spill spill;
    struct nk_seeding seeding;
};

/* The record. Fields may be read at any time between calls; a caller that writes them answers for what follows. */
struct nk_keeper {
    struct nk_ledger ledger;
    /* a timer for each device: the clock of its last kept event, that event's first and second difference, and how many kept events of
     * the device came, up to three */
    uint32_t clocks[NK_DEVICES];
    int64_t firsts[NK_DEVICES];
    int64_t seconds[NK_DEVICES];
    uint8_t came[NK_DEVICES];
    /* secret from here on */
    uint32_t input[NK_INPUT_WORDS];
    uint32_t blocking[NK_BLOCKING_WORDS];
    uint32_t fast[NK_FAST_WORDS];
    uint32_t generator[NK_GENERATOR_WORDS];
};

/* A desk. Of its numbers the first `count` are remembered, the oldest first. All zero: an empty desk. */
struct nk_desk {
    uint32_t count;
    uint8_t numbers[NK_REMEMBERED][NK_NUMBER_LENGTH];
};

struct nk_answer {
    uint32_t number;
    uint32_t delivered;
    uint32_t blocks;
    uint32_t compressions;
    uint32_t added;
};

/* What nk_issue answers, and the message number: 16 zero bytes where it was refused. */
struct nk_issued {
    struct nk_answer answer;
    uint8_t number[NK_NUMBER_LENGTH];
};

/* The archive was compiled for this layout; a compiler that lays the record out in another way must not link it. A machine of 32 bits may
 * lay it out in the same way, and would hand over lengths and pointers of four bytes where eight are read. */
NK_HOLDS(sizeof(size_t) == 8);
NK_HOLDS(sizeof(void *) == 8);
NK_HOLDS(sizeof(struct nk_spot) == 8);
NK_HOLDS(offsetof(struct nk_spot, at) == 0);
NK_HOLDS(offsetof(struct nk_spot, turn) == 4);
NK_HOLDS(sizeof(struct nk_gauge) == 12);
NK_HOLDS(offsetof(struct nk_gauge, count) == 0);
NK_HOLDS(offsetof(struct nk_gauge, spot) == 4);
NK_HOLDS(sizeof(struct nk_spill) == 8);
NK_HOLDS(offsetof(struct nk_spill, tally) == 0);
NK_HOLDS(offsetof(struct nk_spill, clock) == 4);
NK_HOLDS(sizeof(struct nk_seeding) == 8);
NK_HOLDS(offsetof(struct nk_seeding, mark) == 0);
NK_HOLDS(offsetof(struct nk_seeding, clock) == 4);
NK_HOLDS(sizeof(struct nk_ledger) == 44);
NK_HOLDS(offsetof(struct nk_ledger, input) == 0);
NK_HOLDS(offsetof(struct nk_ledger, blocking) == 12);
NK_HOLDS(offsetof(struct nk_ledger, value) == 24);
NK_HOLDS(offsetof(struct nk_ledger, spill) == 28);
NK_HOLDS(offsetof(struct nk_ledger, seeding) == 36);
NK_HOLDS(sizeof(struct nk_keeper) == 22272);
NK_HOLDS(offsetof(struct nk_keeper, ledger) == 0);
NK_HOLDS(offsetof(struct nk_keeper, clocks) == 44);
NK_HOLDS(offsetof(struct nk_keeper, firsts) == 4144); /* four bytes of padding lie before it */
NK_HOLDS(offsetof(struct nk_keeper, seconds) == 12336);
NK_HOLDS(offsetof(struct nk_keeper, came) == 20528);
NK_HOLDS(offsetof(struct nk_keeper, input) == 21552);
NK_HOLDS(offsetof(struct nk_keeper, blocking) == 22064);
NK_HOLDS(offsetof(struct nk_keeper, fast) == 22192);
NK_HOLDS(offsetof(struct nk_keeper, generator) == 22208);
NK_HOLDS(sizeof(struct nk_answer) == 20);
NK_HOLDS(offsetof(struct nk_answer, number) == 0);
NK_HOLDS(offsetof(struct nk_answer, delivered) == 4);
NK_HOLDS(offsetof(struct nk_answer, blocks) == 8);
NK_HOLDS(offsetof(struct nk_answer, compressions) == 12);
NK_HOLDS(offsetof(struct nk_answer, added) == 16);
NK_HOLDS(sizeof(struct nk_desk) == 1028);
NK_HOLDS(offsetof(struct nk_desk, count) == 0);
NK_HOLDS(offsetof(struct nk_desk, numbers) == 4);
NK_HOLDS(sizeof(struct nk_issued) == 36);
NK_HOLDS(offsetof(struct nk_issued, answer) == 0);
NK_HOLDS(offsetof(struct nk_issued, number) == 20);
#undef NK_HOLDS

/* Makes a keeper of the record, whatever the record held: pools, counts, timers and marks zero, unseeded, the generator's other words
 * from the 48 start bytes. Bytes 0 to 31 are its key, 32 to 39 its block counter; 40 to 47 stay as they are for good, so keepers that
 * differ there never run the cipher on the same input. The start bytes count for no credit.
 * Never use the same start bytes twice, on this device or another: two keepers made from them and fed alike hand out the same bytes.
 * And write them as well (nk_write): the pools do not know of them, and blocking reads come from the pools.
 * Refused: NK_START_NOT_48. The record then stays as it was, and is a keeper only if it was one before. */
NK_LOOK struct nk_answer nk_make(struct nk_keeper *k, const uint8_t *start, size_t start_len);

/* Something happened on a device: `stamp` is the finest counter at hand, `value` what the device told (a key's code, a sector).
 * Stamp, clock and value are mixed into the input pool. The credit, 0 to 11 bits, comes from how irregular the device's clocks are,
 * and from nothing else. The first three events that are kept of a device earn nothing, since their clocks have too few others to be
 * compared with; they are mixed, and their clocks kept, as all are. An event that is refused is not kept and does not count.
 * An unseeded keeper that is credited at all and then has 128 bits is seeded at once.
 * Changes the input pool and its count, the device's timer, and for device 0 the last value; where it seeds, the generator's key too.
 * Refused, in this order: NK_OUT_OF_RANGE; NK_NO_SUCH_DEVICE, device over 1,023; NK_REPEATED, device 0 with the value of its last event
 * that was kept (0 at first). */
struct nk_answer nk_event(struct nk_keeper *k, uint32_t device, uint32_t now, uint64_t stamp, uint32_t value);

/* An interrupt came: its number, and the address of the instruction that it broke into. The numbers are stirred into the fast pool.
 * At the 64th interrupt since the last time, whatever the clock, or when more than 1,000 ticks went by since then, the fast pool spills
 * into the input pool for a credit of 1 bit; an unseeded keeper that then has 128 bits is seeded at once.
 * Refused: NK_OUT_OF_RANGE. */
struct nk_answer nk_interrupt(struct nk_keeper *k, uint32_t now, uint32_t number, uint64_t stamp, uint64_t address);

/* Mixes `len` bytes, 0 to 4,096, into the input pool, for no credit: bytes that may be known to others do no harm.
 * Refused, in this order: NK_OUT_OF_RANGE; NK_TOO_LONG. */
struct nk_answer nk_write(struct nk_keeper *k, const uint8_t *bytes, size_t len);

/* Mixes `len` bytes, 0 to 4,096, into the input pool, then credits the pool with `credit` bits: how much of the bytes nobody can guess.
 * The count rises by at most three quarters of the credit, and by less the fuller the pool is: 171 bits are the least that seed an empty
 * one. An unseeded keeper that has 128 bits after this is seeded at once; a credit of 0 never seeds.
 * Credit the same bytes only once: a seed that is stored has to be erased before it is used.
 * Refused, in this order: NK_OUT_OF_RANGE; NK_TOO_LONG; NK_CREDIT_TOO_HIGH, credit above 8 x len. */
NK_LOOK struct nk_answer nk_seed(struct nk_keeper *k, uint32_t now, const uint8_t *bytes, size_t len, uint32_t credit);

/* Fills the room with generator bytes: all of it, so `delivered` is `len`. Each read ends by changing the generator's key, so that
 * a record that is stolen later does not tell what was read. Where more than 300,000 ticks went by since the last seeding and the
 * input pool has 128 bits, the generator is seeded anew first.
 * A length of 0 is NK_DONE and changes nothing, seeded or not.
 * Refused, in this order: NK_OUT_OF_RANGE; NK_TOO_LONG; NK_UNSEEDED. */
NK_LOOK struct nk_answer nk_read(struct nk_keeper *k, uint32_t now, uint8_t *out, size_t len);

/* Hands out bytes of the blocking pool, up to `len` and no more than its credit covers; `delivered` says how many, at least 1 where
 * `len` is at least 1. Where the blocking pool has too little, bytes are first brought over from the input pool, 8 to 128, if the
 * input pool has credit for 8. Bytes of the room past the delivered ones keep their contents. It never waits: ask again later for
 * the rest. Over all calls since nk_make, 8 x the bytes that blocking reads delivered are at most 9/16 of the bits that events (their
 * estimate), interrupts (1 at a spill) and seeds (their credit) were good for before a pool dampened them, refused ones for none.
 * A length of 0 is NK_DONE and changes nothing.
 * Refused, in this order: NK_OUT_OF_RANGE; NK_TOO_LONG; NK_WOULD_BLOCK, exactly if the blocking count is below 64 and the input count
 * below 512. */
NK_LOOK struct nk_answer nk_blocking_read(struct nk_keeper *k, uint8_t *out, size_t len);

/* Issues a message number: the class and 15 generator bytes, drawn at `now` as nk_read draws them, so the first draw may seed anew. The
 * class is the message's class field, `len` bytes at `field`, and has to be the one byte NK_DRILL or NK_LIVE.
 * A draw that with its class equals a remembered number in all 16 bytes is thrown away, and another is made, four at the most. `blocks`
 * and `compressions` are those of all draws. Draws after the first never seed: each costs one block and no compression, and changes
 * no count, no timer and no mark. The number that is issued differs from all that the desk remembers.
 * It becomes the desk's newest: put behind the others, or, where 64 are remembered, the oldest goes, all others move up by one place, and
 * the number is the last.
 * Refused, in this order: NK_OUT_OF_RANGE, by the record or by a desk's count above 64; NK_NO_SUCH_CLASS; NK_UNSEEDED; NK_ALL_REPEATED, after
 * four draws that the desk remembers: the desk then stays as it was, the record is as four reads of 15 bytes leave it, and `blocks` and
 * `compressions` are theirs. The others draw nothing. A refusal hands back 16 zero bytes for a number. */
NK_LOOK struct nk_issued nk_issue(struct nk_keeper *k, struct nk_desk *desk, uint32_t now, const uint8_t *field, size_t len);

#undef NK_LOOK

#ifdef __cplusplus
}
#endif

#endif
