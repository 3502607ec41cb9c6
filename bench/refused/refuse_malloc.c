// Refuses chosen requests for memory of a program that is started with this library as LD_PRELOAD. It stands on glibc's
// own allocator, by the names under which glibc exports it.
//
// A request is a call of malloc, calloc, realloc, aligned_alloc, memalign or posix_memalign. Requests count from 1 in the
// order in which the process makes them. Three environment variables say what is refused and where it is told:
//
//   REFUSE_FROM    the first request that is refused; 0, or no such variable: none
//   REFUSE_MANY    how many are refused from there on: a number, or `all`; 1 if not given
//   REFUSE_REPORT  a file descriptor. Before each write to standard output a line `write R` goes there, and at the end
//                  `end R F`: R requests were made so far, F of them were refused.
//   REFUSE_SHARED  a file of at least 48 bytes, in which the numbers of `struct numbers` stand from then on, so that another process sees how
//                  many requests were made, and says while this one runs what is refused
#define _GNU_SOURCE
#include <errno.h>
#include <fcntl.h>
#include <stddef.h>
#include <stdlib.h>
#include <string.h>
#include <sys/mman.h>
#include <sys/syscall.h>
#include <unistd.h>

extern void *__libc_malloc(size_t size);
extern void *__libc_calloc(size_t count, size_t size);
extern void *__libc_realloc(void *old, size_t size);
extern void *__libc_memalign(size_t alignment, size_t size);

enum { LINE = 64 };

// How many requests were made and refused; the first that is refused, and how many from there on; and, where `chance` is not 0, one in
// `chance` of all requests, as a hash of its number and the seed says.
struct numbers {
    unsigned long requests, refused, from, many, chance, seed;
};

static struct numbers own = {.many = 1}, *numbers = &own;
static int report = -1;
// Until the variables are read every request is granted, and none counts.
static int started;

static unsigned long number_of(const char *name, unsigned long otherwise) {
    const char *text = getenv(name);
    return text ? strtoul(text, NULL, 10) : otherwise;
}

__attribute__((constructor)) static void start(void) {
    const char *all = getenv("REFUSE_MANY"), *shared = getenv("REFUSE_SHARED");
    int file = shared ? open(shared, O_RDWR) : -1;
    if (file >= 0) {
        void *seen = mmap(NULL, sizeof own, PROT_READ | PROT_WRITE, MAP_SHARED, file, 0);
        numbers = seen == MAP_FAILED ? &own : seen;
        close(file);
    }
    numbers->from = number_of("REFUSE_FROM", 0);
    numbers->many = all && strcmp(all, "all") == 0 ? (unsigned long)-1 : number_of("REFUSE_MANY", 1);
    report = (int)number_of("REFUSE_REPORT", (unsigned long)-1);
    started = 1;
}

// Whether a number is one of those that chance picks.
static int is_picked(unsigned long number) {
    unsigned long chance = __atomic_load_n(&numbers->chance, __ATOMIC_SEQ_CST);
    unsigned long mixed = (number ^ numbers->seed) * 0x9e3779b97f4a7c15ul;
    return chance != 0 && (mixed ^ mixed >> 29) * 0xbf58476d1ce4e5b9ul >> 32 < (1ul << 32) / chance;
}

// Whether the request that is made now is refused.
static int is_refused(void) {
    if (!started)
        return 0;
    unsigned long number = __atomic_add_fetch(&numbers->requests, 1, __ATOMIC_SEQ_CST);
    unsigned long from = __atomic_load_n(&numbers->from, __ATOMIC_SEQ_CST);
    if ((from == 0 || number < from || number - from >= numbers->many) && !is_picked(number))
        return 0;
    __atomic_add_fetch(&numbers->refused, 1, __ATOMIC_SEQ_CST);
    errno = ENOMEM;
    return 1;
}

void *malloc(size_t size) {
    return is_refused() ? NULL : __libc_malloc(size);
}

void *calloc(size_t count, size_t size) {
    return is_refused() ? NULL : __libc_calloc(count, size);
}

void *realloc(void *old, size_t size) {
    return is_refused() ? NULL : __libc_realloc(old, size);
}

void *memalign(size_t alignment, size_t size) {
    return is_refused() ? NULL : __libc_memalign(alignment, size);
}

void *aligned_alloc(size_t alignment, size_t size) {
    return memalign(alignment, size);
}

int posix_memalign(void **out, size_t alignment, size_t size) {
    void *made = memalign(alignment, size);
    if (made == NULL)
        return ENOMEM;
    *out = made;
    return 0;
}

// Puts a number in front of a text that begins at `end`, and returns where it begins then.
static char *put_number(char *end, unsigned long number) {
    do
        *--end = (char)('0' + number % 10);
    while (number /= 10);
    return end;
}

static char *put_text(char *end, const char *text) {
    size_t length = strlen(text);
    return memcpy(end - length, text, length);
}

// The line is written from its end. No call here asks for memory.
static void tell(const char *what, int at_end) {
    char line[LINE];
    char *end = line + LINE, *text = put_text(end, "\n");
    if (report < 0)
        return;
    if (at_end)
        text = put_text(put_number(text, numbers->refused), " ");
    text = put_text(put_number(text, numbers->requests), what);
    syscall(SYS_write, report, text, (size_t)(end - text));
}

ssize_t write(int descriptor, const void *bytes, size_t count) {
    if (descriptor == STDOUT_FILENO)
        tell("write ", 0);
    return syscall(SYS_write, descriptor, bytes, count);
}

__attribute__((destructor)) static void stop(void) {
    tell("end ", 1);
}
