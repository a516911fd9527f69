// A random caller of memory.c and numbers.c, with guard bytes around what it is lent: memory_test SEED STEPS. It fails where a byte that
// it wrote has changed, where a block is not at a multiple of 16, where growing kept too little, where more than a fifth of
// the blocks is not what was asked for, and where more than a third of the memory is of no use: the libc's own wastes more.
#include <stddef.h>
#include <stdint.h>
#include <stdio.h>
#include <stdlib.h>

void *room_of(size_t size);
void *room_grow(void *room, size_t kept, size_t size);
void room_free(void *room);
void room_limit(size_t bytes);
size_t room_used(void);
size_t room_lent(void);

typedef unsigned __int128 u128;
u128 tested_lshrti3(u128 number, int by);
u128 tested_ashlti3(u128 number, int by);
u128 tested_multi3(u128 a, u128 b);

enum { SLOTS = 3000, GUARD = 16, LARGEST = 100000 };

struct held {
    unsigned char *room; // GUARD bytes, what is held, GUARD bytes
    size_t size;
    unsigned char mark;
};

static struct held slots[SLOTS];
static uint64_t state;
static size_t lent, most_lent; // bytes, with their guards

static uint64_t drawn(uint64_t below) {
    state ^= state << 13;
    state ^= state >> 7;
    state ^= state << 17;
    return state % below;
}

static void fail(const char *said, size_t at) {
    fprintf(stderr, "memory_test: %s at %zu\n", said, at);
    exit(1);
}

static size_t drawn_size(void) { // small ones, as names and headers, and texts of any length
    uint64_t kind = drawn(100);
    return kind < 60 ? 24 + drawn(200) : kind < 95 ? 200 + drawn(4000) : 4000 + drawn(60000);
}

static unsigned char wanted(const struct held *it, size_t at) {
    return at < GUARD || at >= GUARD + it->size ? 0xA5 : (unsigned char)(it->mark + at * 7);
}

static void fill(struct held *it, size_t from) {
    for (size_t at = from; at < it->size + 2 * GUARD; at++) it->room[at] = wanted(it, at);
}

static void look(const struct held *it, size_t slot) {
    for (size_t at = 0; at < it->size + 2 * GUARD; at++)
        if (it->room[at] != wanted(it, at)) fail("a byte has changed in slot", slot);
}

static void count(size_t more, size_t fewer) {
    lent += more - fewer;
    if (lent > most_lent) most_lent = lent;
}

static void begin(struct held *it, size_t size, size_t slot) {
    *it = (struct held){room_of(size + 2 * GUARD), size, (unsigned char)drawn(256)};
    if (!it->room) fail("memory was refused in slot", slot);
    if ((size_t)it->room % 16) fail("a block is not at a multiple of 16 in slot", slot);
    fill(it, 0);
    count(size + 2 * GUARD, 0);
}

static void resize(struct held *it, size_t size, size_t slot) {
    size_t kept = GUARD + (size < it->size ? size : it->size);
    it->room = room_grow(it->room, kept, size + 2 * GUARD);
    if (!it->room) fail("memory was refused in slot", slot);
    count(size, it->size);
    it->size = size;
    for (size_t at = 0; at < kept; at++)
        if (it->room[at] != wanted(it, at)) fail("growing kept too little in slot", slot);
    fill(it, kept);
}

static void end(struct held *it) {
    count(0, it->size + 2 * GUARD);
    room_free(it->room);
    it->room = NULL;
}

static void step(size_t slot) {
    struct held *it = &slots[slot];
    if (!it->room) {
        begin(it, drawn_size(), slot);
        return;
    }
    look(it, slot);
    uint64_t what = drawn(3);
    if (what == 0 && it->size < LARGEST) resize(it, it->size + it->size / 2 + 8, slot);
    else if (what == 1) resize(it, it->size / 2 + 1, slot);
    else end(it);
}

// A text that grows by a byte each time stands where it is: nothing else is lent.
static void grow_alone(void) {
    size_t begun = room_used();
    unsigned char *first = room_of(16), *room = first;
    for (size_t size = 17; size < 3000000; size += 1 + size / 50) {
        room = room_grow(room, size - 1, size);
        if (room != first) fail("the last block was moved at the size", size);
    }
    room_free(room);
    if (room_used() != begun) fail("a freed block was not given back", room_used());
}

static void refuse(void) {
    room_limit(room_used());
    if (room_of((size_t)1 << 24)) fail("memory was not refused", 0);
    room_limit((size_t)1 << 60);
    if (room_of((size_t)1 << 50)) fail("memory was not refused", 1);
}

static u128 drawn_number(void) {
    u128 number = (u128)drawn(UINT64_MAX) << 64 | drawn(UINT64_MAX);
    return drawn(4) ? number : number >> drawn(128);
}

static void look_at_numbers(void) {
    for (size_t at = 0; at < 1000000; at++) {
        u128 a = drawn_number(), b = drawn_number();
        int by = (int)drawn(128);
        if (tested_lshrti3(a, by) != a >> by) fail("a shift to the right is wrong", at);
        if (tested_ashlti3(a, by) != a << by) fail("a shift to the left is wrong", at);
        if (tested_multi3(a, b) != a * b) fail("a product is wrong", at);
    }
}

static void walk(size_t steps) {
    for (size_t at = 0; at < steps; at++) step(drawn(SLOTS));
    for (size_t slot = 0; slot < SLOTS; slot++)
        if (slots[slot].room) look(&slots[slot], slot);
}

static void end_all(void) {
    for (size_t slot = 0; slot < SLOTS; slot++)
        if (slots[slot].room) end(&slots[slot]);
    if (room_used() != 0) fail("what was freed is not given back, used", room_used());
}

int main(int count, char **words) {
    if (count != 3) return 2;
    state = strtoull(words[1], NULL, 10) * 2 + 1;
    size_t steps = strtoull(words[2], NULL, 10);
    look_at_numbers();
    grow_alone();
    walk(steps);
    size_t used = room_used(), blocks = room_lent(), asked = lent;
    refuse();
    end_all();
    walk(steps / 10);
    end_all();
    if (room_lent() != 0) fail("what was freed is counted as lent", room_lent());
    if (blocks - asked > blocks / 5) fail("blocks have more than a fifth beyond what was asked for", blocks);
    if (used - most_lent > used / 3) fail("more than a third is of no use", used);
    printf("memory: ok, %zu steps; blocks of %zu bytes hold %zu; of %zu used, %zu were lent at most\n", steps, blocks, asked,
           used, most_lent);
    return 0;
}
