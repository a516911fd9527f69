// The memory of the WebAssembly module: the three functions by which the library allocates, and room for what JavaScript
// lends to a call.
//
// A block has a head of eight bytes before it: its size, and whether it and the one before it are in use. A free block has
// its size at its end too, so that blocks that are freed become one with those around them. Free blocks stand in lists by
// size, 16 to each power of two. The block at the end of the memory grows with it.

// There are no headers for this target.
typedef __SIZE_TYPE__ size_t;
typedef __UINT64_TYPE__ uint64_t;
typedef __UINT32_TYPE__ uint32_t;
#define UINT32_MAX __UINT32_MAX__
typedef _Bool bool;
#define NULL ((void *)0)
#define true 1
#define false 0

struct tried {
    size_t ok;
    void *at;
};

// What stands at a block's head, and, behind it, where a free one stands in its list.
struct block {
    size_t head;
    struct block *next, *before;
};

enum { UNIT = 16, HEAD = 8, LEAST = 32, IN_USE = 1, AFTER_USED = 2, MARKS = 15, STEPS = 16, LISTS = STEPS * 64 };
// The module's addresses have 32 bits once it is lowered, and some room stays free beyond all blocks.
static const size_t PAGE = 65536, MOST = ((size_t)1 << 32) - ((size_t)1 << 24);

static struct block *lists[LISTS];
static uint64_t filled[LISTS / 64]; // which lists have a block
static char *start, *top, *end;     // the blocks, the end of the last one that was handed out, and of the memory
static size_t limit = ((size_t)1 << 32) - ((size_t)1 << 24);
static size_t lent; // the bytes of the blocks in use, with their heads

#ifdef __wasm__
extern char __heap_base;
static char *memory_begin(void) { return &__heap_base; }
static char *memory_end(void) { return (char *)(__builtin_wasm_memory_size(0) * PAGE); }
static size_t memory_size(void) { return __builtin_wasm_memory_size(0) * PAGE; }
// A refusal is all ones, of as many bits as an address has.
static bool memory_grow(size_t pages) { return (uint32_t)__builtin_wasm_memory_grow(0, pages) != UINT32_MAX; }
#else // for a test: an array that grows
char fiorrudda_arena[1u << 30] __attribute__((aligned(65536)));
static size_t arena_pages = 1;
static char *memory_begin(void) { return fiorrudda_arena; }
static char *memory_end(void) { return fiorrudda_arena + arena_pages * PAGE; }
static size_t memory_size(void) { return arena_pages * PAGE; }
static bool memory_grow(size_t pages) {
    if (arena_pages + pages > sizeof fiorrudda_arena / PAGE) return false;
    arena_pages += pages;
    return true;
}
#endif

static size_t size_of(const struct block *block) { return block->head & ~(size_t)MARKS; }
static struct block *after(struct block *block) { return (struct block *)((char *)block + size_of(block)); }
static void *room_in(struct block *block) { return (char *)block + HEAD; }
static struct block *block_of(void *room) { return (struct block *)((char *)room - HEAD); }
static size_t *foot_of(struct block *block) { return (size_t *)((char *)block + size_of(block) - sizeof(size_t)); }

// ---- the lists of free blocks

static size_t list_of(size_t size) {
    size_t power = 63 - (size_t)__builtin_clzll(size);
    return STEPS * power + ((size >> (power - 4)) & (STEPS - 1));
}

static void enter(struct block *block) {
    size_t list = list_of(size_of(block));
    *foot_of(block) = size_of(block);
    block->before = NULL;
    block->next = lists[list];
    if (block->next) block->next->before = block;
    lists[list] = block;
    filled[list / 64] |= (uint64_t)1 << list % 64;
}

static void leave(struct block *block) {
    size_t list = list_of(size_of(block));
    if (block->next) block->next->before = block->before;
    if (block->before) block->before->next = block->next;
    else lists[list] = block->next;
    if (!lists[list]) filled[list / 64] &= ~((uint64_t)1 << list % 64);
}

// The first list from one on that has a block, or LISTS.
static size_t next_filled(size_t list) {
    for (size_t word = list / 64; word < LISTS / 64; word++) {
        uint64_t left = filled[word] & (word == list / 64 ? ~(uint64_t)0 << list % 64 : ~(uint64_t)0);
        if (left) return 64 * word + (size_t)__builtin_ctzll(left);
    }
    return LISTS;
}

// The smallest of a list's first blocks that are large enough.
static struct block *best_of(size_t list, size_t size) {
    struct block *best = NULL;
    size_t left = 32;
    for (struct block *it = lists[list]; it && left; it = it->next, left--)
        if (size_of(it) >= size && (!best || size_of(it) < size_of(best))) best = it;
    return best;
}

static struct block *fitting(size_t size) {
    size_t list = list_of(size);
    struct block *found = best_of(list, size);
    if (found) return found;
    list = next_filled(list + 1);
    return list < LISTS ? best_of(list, size) : NULL;
}

// ---- blocks

// Has the next block know whether this one is in use. The last one always is: what is freed there is room to grow.
static void mark_after(struct block *block, bool used) {
    struct block *next = after(block);
    if ((char *)next == top) return;
    if (used) next->head |= AFTER_USED;
    else next->head &= ~(size_t)AFTER_USED;
}

// Hands the end of the memory on, so that it has so many bytes from `top` on.
static bool reach(size_t size) {
    if (!start) {
        start = top = (char *)(((size_t)memory_begin() + UNIT - 1) / UNIT * UNIT + HEAD);
        end = memory_end();
    }
    size_t have = end > top ? (size_t)(end - top) : 0;
    if (size <= have) return true;
    size_t more = (size - have + PAGE - 1) / PAGE, spare = (size_t)(top - start) / 16 / PAGE;
    if (memory_size() + more * PAGE > limit) return false;
    bool has_spare = memory_size() + (more + spare) * PAGE <= limit && memory_grow(more + spare);
    if (!has_spare && !memory_grow(more)) return false;
    end = memory_end();
    return true;
}

// Makes a block that is not in use free, one with those beside it; at the end of all it becomes room to grow.
static void make_free(struct block *block) {
    size_t size = size_of(block), marks = block->head & AFTER_USED;
    char *next = (char *)block + size;
    if (next != top && !(((struct block *)next)->head & IN_USE)) {
        leave((struct block *)next);
        size += size_of((struct block *)next);
    }
    if (!marks) {
        block = (struct block *)((char *)block - *(size_t *)((char *)block - sizeof(size_t)));
        leave(block);
        size += size_of(block);
        marks = block->head & AFTER_USED;
    }
    if ((char *)block + size == top) {
        top = (char *)block;
        return;
    }
    block->head = size | marks;
    enter(block);
    mark_after(block, false);
}

// Gives back what a block in use has beyond a size.
static void cut(struct block *block, size_t size) {
    size_t rest = size_of(block) - size;
    if (rest < LEAST) return;
    block->head -= rest;
    lent -= rest;
    struct block *left = after(block);
    left->head = rest | AFTER_USED;
    make_free(left);
}

static struct block *at_top(size_t size) {
    if (!reach(size)) return NULL;
    struct block *block = (struct block *)top;
    block->head = size | IN_USE | AFTER_USED;
    top += size;
    lent += size;
    return block;
}

static size_t block_size(size_t size) {
    size_t whole = (size + HEAD + UNIT - 1) / UNIT * UNIT;
    return whole < LEAST ? LEAST : whole;
}

static struct block *taken(size_t size) {
    struct block *found = fitting(size);
    if (!found) return at_top(size);
    leave(found);
    found->head |= IN_USE;
    lent += size_of(found);
    mark_after(found, true);
    cut(found, size);
    return found;
}

// Whether a block has got a size where it stands.
static bool grown(struct block *block, size_t size) {
    struct block *next = after(block);
    if ((char *)next == top) {
        size_t more = size - size_of(block);
        if (!reach(more)) return false;
        top += more;
        block->head += more;
        lent += more;
        return true;
    }
    if (next->head & IN_USE || size_of(block) + size_of(next) < size) return false;
    leave(next);
    block->head += size_of(next);
    lent += size_of(next);
    mark_after(block, true);
    cut(block, size);
    return true;
}

// ---- what is called

void *room_of(size_t size) {
    if (size > MOST) return NULL;
    struct block *block = taken(block_size(size));
    return block ? room_in(block) : NULL;
}

void room_free(void *room) {
    if (!room) return;
    struct block *block = block_of(room);
    block->head &= ~(size_t)IN_USE;
    lent -= size_of(block);
    make_free(block);
}

// The same room with another size, where it stands or elsewhere; its first `kept` bytes are as they were.
void *room_grow(void *room, size_t kept, size_t size) {
    if (size > MOST) return NULL;
    struct block *block = block_of(room);
    size_t wanted = block_size(size);
    if (wanted <= size_of(block)) {
        cut(block, wanted);
        return room;
    }
    if (grown(block, wanted)) return room;
    void *other = room_of(size);
    if (!other) return NULL;
    __builtin_memcpy(other, room, kept < size ? kept : size);
    room_free(room);
    return other;
}

// Refuses memory beyond so many bytes from now on.
void room_limit(size_t bytes) { limit = bytes < MOST ? bytes : MOST; }

// How many bytes of the memory lie below the end of the last block.
size_t room_used(void) { return start ? (size_t)(top - start) : 0; }

// How many bytes the blocks have that are not freed.
size_t room_lent(void) { return lent; }

static struct tried tried(void *room) { return (struct tried){room != NULL, room ? room : (void *)UNIT}; }

// An alignment is at most 16. Nothing has the size 0: the library lends a block all the same.
struct tried rattle_alloc(size_t size, size_t align) { return tried(room_of(size ? size : align)); }

struct tried rattle_realloc(void *room, size_t kept, size_t size, size_t align) {
    return tried(room_grow(room, kept, size ? size : align));
}

void rattle_dealloc(void *room) { room_free(room); }
