/* Preloaded into a program: makes its n-th allocation fail (n from OOM_AT, from 1 on; none for 0), and writes to the
   descriptor of OOM_COUNT_TO how many allocations were made. To free memory or to shrink a block is no allocation.
   With OOM_MARKED=1 only allocations between two marks count: a request of MARK_BEGIN bytes, and one of MARK_END bytes. */
#define _GNU_SOURCE
#include <errno.h>
#include <malloc.h>
#include <stdio.h>
#include <stdlib.h>
#include <string.h>
#include <sys/syscall.h>
#include <unistd.h>

extern void *__libc_malloc(size_t size);
extern void *__libc_calloc(size_t count, size_t size);
extern void *__libc_realloc(void *block, size_t size);
extern void *__libc_memalign(size_t alignment, size_t size);

enum { MARK_BEGIN = 1234577, MARK_END = 1234579 };

static unsigned long asked, failing;
static int is_ready, to, is_marked, is_within;

static unsigned long number(const char *name) {
    const char *text = getenv(name);
    return text ? strtoul(text, NULL, 10) : 0;
}

__attribute__((constructor)) static void begin(void) {
    failing = number("OOM_AT");
    to = (int)number("OOM_COUNT_TO");
    is_marked = (int)number("OOM_MARKED");
    is_within = !is_marked;
    is_ready = 1;
}

static void tell(void) {
    char line[32];
    if (!is_ready) return;
    is_ready = 0;
    if (write(to, line, (size_t)snprintf(line, sizeof line, "%lu\n", asked)) < 0) errno = 0;
}

__attribute__((destructor)) static void end(void) {
    tell();
}

/* A program that starts threads ends so, without its destructors. */
void _exit(int status) {
    tell();
    syscall(SYS_exit_group, status);
    __builtin_unreachable();
}

static int fails(void) {
    int counts = is_ready && __atomic_load_n(&is_within, __ATOMIC_RELAXED);
    return counts && __atomic_add_fetch(&asked, 1, __ATOMIC_RELAXED) == failing;
}

/* A mark never fails, and counts for nothing. */
static int is_mark(size_t size) {
    if (!is_marked || (size != MARK_BEGIN && size != MARK_END)) return 0;
    __atomic_store_n(&is_within, size == MARK_BEGIN, __ATOMIC_RELAXED);
    return 1;
}

static void *no_memory(void) {
    errno = ENOMEM;
    return NULL;
}

void *malloc(size_t size) {
    return !is_mark(size) && fails() ? no_memory() : __libc_malloc(size);
}

void *calloc(size_t count, size_t size) {
    return fails() ? no_memory() : __libc_calloc(count, size);
}

void *realloc(void *block, size_t size) {
    int grows = !block || size > malloc_usable_size(block);
    return grows && fails() ? no_memory() : __libc_realloc(block, size);
}

void *memalign(size_t alignment, size_t size) {
    return fails() ? no_memory() : __libc_memalign(alignment, size);
}

void *aligned_alloc(size_t alignment, size_t size) {
    return memalign(alignment, size);
}

int posix_memalign(void **block, size_t alignment, size_t size) {
    void *made = memalign(alignment, size);
    if (!made) return ENOMEM;
    *block = made;
    return 0;
}
