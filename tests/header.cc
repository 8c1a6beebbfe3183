// nk.h in a C++ program: the record and the answer are the same, and the calls link and answer as in C. It uses nothing of the C++ library.
#include "../include/nk.h"

namespace {

unsigned faults;

void expect(const nk_answer &a, uint32_t number, uint32_t delivered, uint32_t blocks, uint32_t compressions, uint32_t added) {
    bool alike = a.number == number && a.delivered == delivered && a.blocks == blocks && a.compressions == compressions;
    if (!alike || a.added != added) faults++;
}

} // namespace

extern "C" unsigned faults_from_cxx() {
    static nk_keeper k;
    static nk_desk desk;
    uint8_t start[NK_START_LENGTH] = {}, seed[512] = {}, room[64] = {};
    const uint8_t drill = NK_DRILL, live = NK_LIVE;
    faults = 0;
    expect(nk_read(&k, 0, room, 0), NK_OUT_OF_RANGE, 0, 0, 0, 0);
    expect(nk_make(&k, start, 47), NK_START_NOT_48, 0, 0, 0, 0);
    expect(nk_make(&k, start, sizeof start), NK_DONE, 0, 0, 0, 0);
    expect(nk_read(&k, 0, room, 4), NK_UNSEEDED, 0, 0, 0, 0);
    expect(nk_issue(&k, &desk, 0, &drill, 1).answer, NK_UNSEEDED, 0, 0, 0, 0);
    expect(nk_issue(&k, &desk, 0, room, 1).answer, NK_NO_SUCH_CLASS, 0, 0, 0, 0);
    expect(nk_event(&k, 0, 1024, 1, 0), NK_REPEATED, 0, 0, 0, 0);
    expect(nk_event(&k, 1, 1024, 1, 0), NK_DONE, 0, 0, 0, 0);
    if (k.came[0] != 0 || k.came[1] != 1 || k.ledger.input.count != 0) faults++;
    expect(nk_event(&k, NK_DEVICES - 1, 1024, 1, 0), NK_DONE, 0, 0, 0, 0);
    expect(nk_event(&k, NK_DEVICES, 1024, 1, 0), NK_NO_SUCH_DEVICE, 0, 0, 0, 0);
    if (k.clocks[1023] != 1024 || k.firsts[1023] != 1024 || k.seconds[1023] != 1024 || k.came[1023] != 1) faults++;
    expect(nk_interrupt(&k, 5, 1, 2, 3), NK_DONE, 0, 0, 0, 0);
    expect(nk_write(&k, seed, sizeof seed), NK_DONE, 0, 0, 0, 0);
    expect(nk_seed(&k, 7, seed, sizeof seed, 4096), NK_DONE, 0, 0, 32, 19968);
    expect(nk_read(&k, 7, room, sizeof room), NK_DONE, 64, 2, 0, 0);
    expect(nk_blocking_read(&k, room, 16), NK_DONE, 12, 0, 20, 768);
    const nk_issued first = nk_issue(&k, &desk, 7, &drill, 1), second = nk_issue(&k, &desk, 7, &live, 1);
    expect(first.answer, NK_DONE, NK_NUMBER_LENGTH, 1, 0, 0);
    expect(second.answer, NK_DONE, NK_NUMBER_LENGTH, 1, 0, 0);
    if (desk.count != 2 || first.number[0] != NK_DRILL || second.number[0] != NK_LIVE) faults++;
    for (unsigned i = 0; i < NK_NUMBER_LENGTH; i++)
        if (desk.numbers[0][i] != first.number[i] || desk.numbers[1][i] != second.number[i]) faults++;
    if (k.ledger.input.count != 16896 || k.ledger.seeding.clock != 7 || k.ledger.spill.tally != 1) faults++;
    return faults;
}
