/* Counts the allocations of a program, and refuses one of them: LD_PRELOAD=THIS REFUSED_ALLOCATION=N PROGRAM refuses the Nth
 * one, counted from 1, and LD_PRELOAD=THIS TOLD_ALLOCATIONS=1 PROGRAM tells how many there were.
 *
 * Only what the program itself asks for is counted, so what the C library wants for itself, as for a thread or a
 * stream, is given. A line on standard error says that the allocation was refused; a program that makes fewer
 * allocations prints none. Where they are told, a line on standard error says for each line that the program writes to
 * standard output how many allocations it has made by then.
 */
#define _GNU_SOURCE
#include <dlfcn.h>
#include <errno.h>
#include <link.h>
#include <stdatomic.h>
#include <stdint.h>
#include <stdio.h>
#include <stdlib.h>
#include <string.h>
#include <sys/syscall.h>
#include <unistd.h>

extern void *__libc_malloc(size_t);
extern void *__libc_calloc(size_t, size_t);
extern void *__libc_realloc(void *, size_t);
extern void *__libc_memalign(size_t, size_t);

static atomic_ulong made;
static unsigned long refused;
static int are_told;
static uintptr_t begin, end;

/* Notes where the program's code is: the first object is the program. */
static int note_code(struct dl_phdr_info *info, size_t size, void *unused) {
    (void)size;
    (void)unused;
    for (int i = 0; i < info->dlpi_phnum; i++)
        if (info->dlpi_phdr[i].p_type == PT_LOAD && info->dlpi_phdr[i].p_flags & PF_X) {
            begin = info->dlpi_addr + info->dlpi_phdr[i].p_vaddr;
            end = begin + info->dlpi_phdr[i].p_memsz;
        }
    return 1;
}

__attribute__((constructor)) static void begin_to_count(void) {
    const char *number = getenv("REFUSED_ALLOCATION");
    refused = number ? strtoul(number, NULL, 10) : 0;
    are_told = getenv("TOLD_ALLOCATIONS") != NULL;
    dl_iterate_phdr(note_code, NULL);
}

/* Whether the allocation that is asked for from this place of the code is the one to refuse. */
static int is_refused(void *caller) {
    static const char line[] = "an allocation was refused\n";
    uintptr_t place = (uintptr_t)caller;
    if (place < begin || place >= end || atomic_fetch_add(&made, 1) + 1 != refused)
        return 0;
    return write(STDERR_FILENO, line, sizeof line - 1) > 0;
}

void *malloc(size_t size) {
    return is_refused(__builtin_return_address(0)) ? NULL : __libc_malloc(size);
}

void *calloc(size_t count, size_t size) {
    return is_refused(__builtin_return_address(0)) ? NULL : __libc_calloc(count, size);
}

void *realloc(void *had, size_t size) {
    return is_refused(__builtin_return_address(0)) ? NULL : __libc_realloc(had, size);
}

void *aligned_alloc(size_t alignment, size_t size) {
    return is_refused(__builtin_return_address(0)) ? NULL : __libc_memalign(alignment, size);
}

int posix_memalign(void **made_at, size_t alignment, size_t size) {
    void *made_now = is_refused(__builtin_return_address(0)) ? NULL : __libc_memalign(alignment, size);
    if (!made_now)
        return ENOMEM;
    *made_at = made_now;
    return 0;
}

/* Tells how many allocations the program has made, without one more. */
static void tell(void) {
    char line[40];
    int length = snprintf(line, sizeof line, "allocations %lu\n", atomic_load(&made));
    syscall(SYS_write, STDERR_FILENO, line, length);
}

ssize_t write(int file, const void *bytes, size_t count) {
    if (are_told && file == STDOUT_FILENO)
        for (const char *at = bytes, *end_of_bytes = at + count; (at = memchr(at, '\n', end_of_bytes - at)); at++)
            tell();
    return syscall(SYS_write, file, bytes, count);
}
