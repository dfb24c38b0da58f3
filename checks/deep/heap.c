/* Tries the heap of the page's module: blocks are taken, grown and given back at random. Each is filled with bytes of
   its own, and none may lose one or begin at an odd place. Blocks have from no byte to many pages, and the memory is
   short enough that some requests are refused. The heap is compiled for this machine; its memory is at a fixed place.

   usage: heap SEED CALLS. Prints how many requests there were and how many were refused; ends with status 1 where
   something was wrong. To be linked with `-no-pie -Wl,--defsym=__heap_base=0x10000000`. */
#include <stdio.h>
#include <stdlib.h>
#include <sys/mman.h>

enum { BASE = 0x10000000, PAGES = 320, WASM_PAGE = 65536, BLOCKS = 300 };

/* The memory in pages, as the heap sees it: from address 0 on, though it touches nothing below BASE. */
static unsigned long pages = BASE / WASM_PAGE;

static unsigned long grown(unsigned long more) {
    if (pages + more > BASE / WASM_PAGE + PAGES) return -1ul;
    pages += more;
    return pages - more;
}

#define __builtin_wasm_memory_size(memory) pages
#define __builtin_wasm_memory_grow(memory, more) grown(more)
#define memcpy heap_memcpy
#define memmove heap_memmove
#define memset heap_memset
#include "../../web/module/heap.c"

struct held { unsigned char *at; unsigned long bytes; unsigned char mark; };

static struct held blocks[BLOCKS];

/* No byte, some, or pages. */
static unsigned long drawn_size(void) {
    switch (rand() % 16) {
    case 0: return 0;
    case 1: return rand() % 4000000;
    case 2: case 3: return rand() % 70000;
    default: return rand() % 500;
    }
}

/* Of a long block each so many bytes are looked at. */
static unsigned long step(const struct held *it) { return it->bytes < 1000 ? 1 : 499; }

static void fill(struct held *it) {
    for (unsigned long i = 0; i < it->bytes; i += step(it)) it->at[i] = (unsigned char)(it->mark + i);
    if (it->bytes) it->at[it->bytes - 1] = it->mark;
}

/* Whether a block has its bytes up to a place; behind those filled the last one has the mark. */
static int is_whole(const struct held *it, unsigned long bytes) {
    for (unsigned long i = 0; i < bytes; i += step(it))
        if (i != it->bytes - 1 && it->at[i] != (unsigned char)(it->mark + i)) return 0;
    return !it->bytes || bytes < it->bytes || it->at[it->bytes - 1] == it->mark;
}

/* Takes a block, or with one that is held gives it back or changes its size. Answers whether it was refused. */
static int turn(struct held *it) {
    if (it->at && !is_whole(it, it->bytes)) exit(1);
    if (it->at && rand() % 2) {
        rattle_dealloc(it->at);
        it->at = 0;
        return 0;
    }
    unsigned long bytes = drawn_size();
    answer got = it->at ? rattle_realloc(it->at, it->bytes, bytes, 1) : rattle_alloc(bytes, 1);
    if (!got.ok) return 1;
    int is_grown = it->at != 0;
    it->at = got.at;
    if ((unsigned long)it->at % 16) exit(1);
    if (is_grown && !is_whole(it, bytes < it->bytes ? bytes : it->bytes)) exit(1);
    it->bytes = bytes;
    it->mark = (unsigned char)rand();
    fill(it);
    return 0;
}

int main(int count, char **words) {
    if (count != 3) return 2;
    void *place = mmap((void *)BASE, (unsigned long)PAGES * WASM_PAGE, PROT_READ | PROT_WRITE,
                       MAP_PRIVATE | MAP_ANONYMOUS | MAP_FIXED_NOREPLACE | MAP_NORESERVE, -1, 0);
    if (place != (void *)BASE) return 2;
    srand((unsigned)atoi(words[1]));
    int calls = atoi(words[2]), refused = 0;
    for (int i = 0; i < calls; i++) refused += turn(&blocks[rand() % BLOCKS]);
    printf("%d requests, %d refused\n", calls, refused);
    return 0;
}
