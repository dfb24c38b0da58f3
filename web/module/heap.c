/* The heap of the module: the three functions by which the library asks for memory, over memory.grow, and one by which
   the page does.

   Each block has a header of 16 bytes: its size with the header, and its class. A small block's class is its size, in
   steps of a quarter of a power of two. Small blocks are cut from pieces, and wait in the list of their class once they
   are freed. A large block, of class 0, stands alone. Freed ones wait in a list by address, and neighbours become one.

   Nothing here is proved. */
typedef unsigned long u64;

/* What the library takes an answer as: whether there is memory, and where. */
typedef struct { u64 ok; void *at; } answer;

typedef struct block { u64 size, class; struct block *next; } block;

/* The memory stays 16 MiB short of 4 GiB, so that a stack that overflows, below address 0, meets none. */
enum { PAGE = 65536, MOST_PAGES = 65536 - 256, MOST_PAGES_AHEAD = 1024 };
enum { HEAD = 16, CLASSES = 64, MOST_SMALL = 32768, PIECE = 131072, STEP = 4096 };
/* No request is larger. */
#define LARGEST (1ul << 32)

extern unsigned char __heap_base;

static block *small[CLASSES], *large;
/* What is left of the piece that small blocks are cut from. */
static u64 piece, piece_end;
/* Where the blocks end, and the memory. */
static u64 top, end;

/* Grows the memory by so many pages. */
static int grow(u64 pages) {
    if (end / PAGE + pages > MOST_PAGES || __builtin_wasm_memory_grow(0, pages) == (u64)-1) return 0;
    end += pages * PAGE;
    return 1;
}

/* Grows the memory up to an address, and by an eighth of it at once where there is room. */
static int reach(u64 to) {
    if (to <= end) return 1;
    u64 pages = (to - end + PAGE - 1) / PAGE, ahead = end / PAGE / 8;
    if (ahead > MOST_PAGES_AHEAD) ahead = MOST_PAGES_AHEAD;
    return (ahead > pages && grow(ahead)) || grow(pages);
}

/* What is left of a free block once its first bytes are taken: a block in its place in the list, or nothing where it
   would be small. Answers how many bytes are taken. */
static u64 cut(block **at, u64 size) {
    block *it = *at;
    if (it->size - size < MOST_SMALL) {
        *at = it->next;
        return it->size;
    }
    block *rest = (block *)((u64)it + size);
    *rest = (block){it->size - size, 0, it->next};
    *at = rest;
    return size;
}

/* A large block: the smallest free one that fits, or one behind all others. */
static block *take_large(u64 size) {
    if (!top) {
        top = ((u64)&__heap_base + 15) & ~15ul;
        end = __builtin_wasm_memory_size(0) * PAGE;
    }
    block **best = 0, *it;
    for (block **at = &large; *at; at = &(*at)->next)
        if ((*at)->size >= size && (!best || (*at)->size < (*best)->size)) best = at;
    if (best) {
        it = *best;
        size = cut(best, size);
    } else {
        if (!reach(top + size)) return 0;
        it = (block *)top;
        top += size;
    }
    it->size = size;
    it->class = 0;
    return it;
}

static void give_large(block *it) {
    block **at = &large, *before = 0;
    while (*at && *at < it) {
        before = *at;
        at = &before->next;
    }
    it->next = *at;
    *at = it;
    if (it->next && (u64)it + it->size == (u64)it->next) {
        it->size += it->next->size;
        it->next = it->next->next;
    }
    if (before && (u64)before + before->size == (u64)it) {
        before->size += it->size;
        before->next = it->next;
    }
}

/* The size of a large block for so many bytes. */
static u64 large_size(u64 bytes) { return (bytes + HEAD + STEP - 1) & ~(STEP - 1ul); }

/* The class of a small block for so many bytes, and its size. Each has room for `next`. */
static unsigned class_of(u64 bytes, u64 *size) {
    u64 n = bytes + HEAD < 32 ? 32 : bytes + HEAD;
    if (n <= 64) {
        *size = (n + 15) & ~15ul;
        return (unsigned)(*size >> 4);
    }
    unsigned log = 63 - __builtin_clzl(n - 1);
    u64 quarters = (n + (1ul << (log - 2)) - 1) >> (log - 2);
    *size = quarters << (log - 2);
    return (log << 2) + (unsigned)quarters - 24;
}

/* A small block: a freed one of its class, or the next of the piece. */
static block *take_small(u64 bytes) {
    u64 size;
    unsigned class = class_of(bytes, &size);
    block *it = small[class];
    if (it) {
        small[class] = it->next;
        return it;
    }
    if (piece_end - piece < size) {
        it = take_large(PIECE);
        if (!it) return 0;
        piece = (u64)it + HEAD;
        piece_end = (u64)it + it->size;
    }
    it = (block *)piece;
    piece += size;
    it->size = size;
    it->class = class;
    return it;
}

answer rattle_alloc(u64 bytes, u64 align) {
    (void)align;
    if (bytes > LARGEST) return (answer){0, 0};
    block *it = bytes + HEAD > MOST_SMALL ? take_large(large_size(bytes)) : take_small(bytes);
    return it ? (answer){1, (char *)it + HEAD} : (answer){0, 0};
}

void rattle_dealloc(void *at) {
    block *it = (block *)((char *)at - HEAD);
    if (it->class) {
        it->next = small[it->class];
        small[it->class] = it;
    } else {
        give_large(it);
    }
}

/* Whether a large block has this size now: it grows where it stands, at the end of all or into a free neighbour. */
static int widened(block *it, u64 size) {
    if (size <= it->size) return 1;
    u64 behind = (u64)it + it->size;
    if (behind == top) {
        if (!reach((u64)it + size)) return 0;
        top = (u64)it + size;
        it->size = size;
        return 1;
    }
    for (block **at = &large; *at && (u64)*at <= behind; at = &(*at)->next) {
        if ((u64)*at != behind || it->size + (*at)->size < size) continue;
        it->size += cut(at, size - it->size);
        return 1;
    }
    return 0;
}

answer rattle_realloc(void *at, u64 kept, u64 bytes, u64 align) {
    block *it = (block *)((char *)at - HEAD);
    u64 size;
    if (bytes > LARGEST) return (answer){0, 0};
    int is_small = bytes + HEAD <= MOST_SMALL;
    if (is_small && it->class && class_of(bytes, &size) == it->class) return (answer){1, at};
    /* A block that shrinks to less than half moves. */
    if (!is_small && !it->class && bytes + HEAD > it->size / 2 && widened(it, large_size(bytes)))
        return (answer){1, at};
    answer moved = rattle_alloc(bytes, align);
    if (!moved.ok) return moved;
    __builtin_memcpy(moved.at, at, kept < bytes ? kept : bytes);
    rattle_dealloc(at);
    return moved;
}

/* Room for a text of the page, or 0 where there is none. */
__attribute__((export_name("room"))) u64 room(u64 bytes) {
    answer it = rattle_alloc(bytes ? bytes : 1, 16);
    return it.ok ? (u64)it.at : 0;
}

void *memcpy(void *to, const void *from, u64 n) { __builtin_memcpy(to, from, n); return to; }
void *memmove(void *to, const void *from, u64 n) { __builtin_memmove(to, from, n); return to; }
void *memset(void *to, int byte, u64 n) { __builtin_memset(to, byte, n); return to; }
