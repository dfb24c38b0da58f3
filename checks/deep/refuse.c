// Refuses what the program that it is loaded into asks of the C library, as the environment says: checks/deep/memory.py and
// checks/deep/devices.py load it by LD_PRELOAD. Only calls from the program's own code are counted, from 1, and none of the
// loader's and of the C library's own. It is for the GNU C library.
//
//   REFUSE_MEMORY=N  the Nth request for memory is refused; with REFUSE_ALL=1 all behind it too
//   READ_PIECE=K     a read gives at most K bytes
//   REFUSE_READ=N    the Nth read fails
//   WRITE_PIECE=K    a write to the output takes at most K bytes
//   REFUSE_WRITE=N   the Nth write to the output fails
//   REFUSE_ERROR=1   each write to the error output fails
//   TOLD=F           one byte is written to the descriptor F at the first refusal of each kind: m, r, w or e
#define _GNU_SOURCE
#include <errno.h>
#include <link.h>
#include <stdint.h>
#include <stdlib.h>
#include <sys/syscall.h>
#include <unistd.h>

void *__libc_malloc(size_t size);
void *__libc_calloc(size_t count, size_t size);
void *__libc_realloc(void *old, size_t size);
void *__libc_memalign(size_t alignment, size_t size);

// Where the program's own code lies; nothing until the environment was read.
static uintptr_t first, behind;
static unsigned long memory, all, read_piece, reads, write_piece, writes, errors;
static int told = -1;

static unsigned long number(const char *name) {
    const char *value = getenv(name);
    return value ? strtoul(value, NULL, 10) : 0;
}

// The first object is the program.
static int lay(struct dl_phdr_info *info, size_t size, void *data) {
    (void)size, (void)data;
    uintptr_t low = UINTPTR_MAX, high = 0;
    for (int i = 0; i < info->dlpi_phnum; i++) {
        const ElfW(Phdr) *part = &info->dlpi_phdr[i];
        uintptr_t start = info->dlpi_addr + part->p_vaddr;
        if (part->p_type == PT_LOAD && (part->p_flags & PF_X)) {
            low = start < low ? start : low;
            high = start + part->p_memsz > high ? start + part->p_memsz : high;
        }
    }
    first = low;
    behind = high;
    return 1;
}

__attribute__((constructor)) static void begin(void) {
    memory = number("REFUSE_MEMORY");
    all = number("REFUSE_ALL");
    read_piece = number("READ_PIECE");
    reads = number("REFUSE_READ");
    write_piece = number("WRITE_PIECE");
    writes = number("REFUSE_WRITE");
    errors = number("REFUSE_ERROR");
    if (getenv("TOLD"))
        told = (int)number("TOLD");
    dl_iterate_phdr(lay, NULL);
}

static int is_own(void *caller) { return (uintptr_t)caller >= first && (uintptr_t)caller < behind; }

static void tell(char kind) {
    if (told >= 0)
        (void)!syscall(SYS_write, told, &kind, 1);
}

// Counts a request for memory, and says whether it is refused.
static int is_refused(void *caller) {
    static unsigned long count;
    if (!is_own(caller))
        return 0;
    count++;
    if (count == memory)
        tell('m');
    if (!memory || count < memory || (count > memory && !all))
        return 0;
    errno = ENOMEM;
    return 1;
}

void *malloc(size_t size) {
    return is_refused(__builtin_return_address(0)) ? NULL : __libc_malloc(size);
}

void *calloc(size_t count, size_t size) {
    return is_refused(__builtin_return_address(0)) ? NULL : __libc_calloc(count, size);
}

void *realloc(void *old, size_t size) {
    return is_refused(__builtin_return_address(0)) ? NULL : __libc_realloc(old, size);
}

void *memalign(size_t alignment, size_t size) {
    return is_refused(__builtin_return_address(0)) ? NULL : __libc_memalign(alignment, size);
}

void *aligned_alloc(size_t alignment, size_t size) {
    return is_refused(__builtin_return_address(0)) ? NULL : __libc_memalign(alignment, size);
}

int posix_memalign(void **new, size_t alignment, size_t size) {
    if (is_refused(__builtin_return_address(0)))
        return ENOMEM;
    *new = __libc_memalign(alignment, size);
    return *new ? 0 : ENOMEM;
}

ssize_t read(int from, void *bytes, size_t size) {
    static unsigned long count;
    if (is_own(__builtin_return_address(0))) {
        if (++count == reads) {
            tell('r');
            errno = EIO;
            return -1;
        }
        if (read_piece && size > read_piece)
            size = read_piece;
    }
    return syscall(SYS_read, from, bytes, size);
}

ssize_t write(int to, const void *bytes, size_t size) {
    static unsigned long count;
    int is_output = to == STDOUT_FILENO && is_own(__builtin_return_address(0));
    if (to == STDERR_FILENO && errors) {
        tell('e');
        errno = EIO;
        return -1;
    }
    if (is_output && ++count == writes) {
        tell('w');
        errno = EIO;
        return -1;
    }
    if (is_output && write_piece && size > write_piece)
        size = write_piece;
    return syscall(SYS_write, to, bytes, size);
}
