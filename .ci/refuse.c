/* Stands before a program (LD_PRELOAD): requests for memory, reads, writes and starts of threads fail or fall short as
   the environment says. Calls that the program itself makes count, and no calls of the C library.

   REFUSE_MEMORY, REFUSE_READ, REFUSE_WRITE and REFUSE_THREAD are each one rule or two, of which the first that a call
   meets holds. A rule is `FIRST LAST HOW`: which of the calls of that kind, counted from 1 (a LAST of 0: all from the
   first on), and how: -E fails with the error number E, 0 moves no byte, 1 one byte, and 2 half of the bytes. Memory
   and threads only fail. REFUSE_COUNTS names a file of five numbers of 64 bits, which count the calls of each kind, in
   this order, and those that met a rule. */
#define _GNU_SOURCE
#include <errno.h>
#include <fcntl.h>
#include <link.h>
#include <pthread.h>
#include <stdatomic.h>
#include <stdint.h>
#include <stdio.h>
#include <stdlib.h>
#include <dlfcn.h>
#include <sys/mman.h>
#include <unistd.h>

enum kind { MEMORY, READ, WRITE, THREAD, KINDS };

struct rule {
    unsigned long first, last;
    long how;
};

static const char *const NAMES[KINDS] = {"REFUSE_MEMORY", "REFUSE_READ", "REFUSE_WRITE", "REFUSE_THREAD"};
static struct rule rules[KINDS][2];
/* The calls of each kind, and then those that a rule met. */
static _Atomic uint64_t unshared[KINDS + 1], *counts = unshared;
/* Where the code of the program lies. */
static uintptr_t code_begin, code_end;

extern void *__libc_malloc(size_t);
extern void *__libc_calloc(size_t, size_t);
extern void *__libc_realloc(void *, size_t);
extern void *__libc_memalign(size_t, size_t);
extern ssize_t __read(int, void *, size_t);
extern ssize_t __write(int, const void *, size_t);

/* The first object is the program. */
static int find_code(struct dl_phdr_info *object, size_t size, void *none) {
    (void)size, (void)none;
    for (int i = 0; i < object->dlpi_phnum; i++) {
        const ElfW(Phdr) *part = &object->dlpi_phdr[i];
        if (part->p_type == PT_LOAD && (part->p_flags & PF_X)) {
            code_begin = object->dlpi_addr + part->p_vaddr;
            code_end = code_begin + part->p_memsz;
        }
    }
    return 1;
}

static void share_counts(const char *name) {
    int file = open(name, O_RDWR);
    void *shared = MAP_FAILED;
    if (file >= 0)
        shared = mmap(NULL, sizeof unshared, PROT_READ | PROT_WRITE, MAP_SHARED, file, 0);
    if (shared == MAP_FAILED)
        abort();
    close(file);
    counts = shared;
}

__attribute__((constructor)) static void prepare(void) {
    for (int kind = 0; kind < KINDS; kind++) {
        const char *text = getenv(NAMES[kind]);
        struct rule *one = &rules[kind][0], *other = &rules[kind][1];
        if (text && sscanf(text, "%lu %lu %ld %lu %lu %ld", &one->first, &one->last, &one->how, &other->first,
                           &other->last, &other->how) % 3 != 0)
            abort();
    }
    if (getenv("REFUSE_COUNTS"))
        share_counts(getenv("REFUSE_COUNTS"));
    dl_iterate_phdr(find_code, NULL);
}

/* Counts a call that returns to `caller`; the rule that it meets, or NULL. */
static const struct rule *met(enum kind kind, void *caller) {
    uintptr_t place = (uintptr_t)caller;
    if (place < code_begin || place >= code_end)
        return NULL;
    unsigned long number = atomic_fetch_add(&counts[kind], 1) + 1;
    for (const struct rule *rule = rules[kind]; rule < rules[kind] + 2; rule++)
        if (rule->first != 0 && number >= rule->first && (rule->last == 0 || number <= rule->last)) {
            atomic_fetch_add(&counts[KINDS], 1);
            return rule;
        }
    return NULL;
}

static int is_refused(void *caller) {
    const struct rule *rule = met(MEMORY, caller);
    if (rule)
        errno = ENOMEM;
    return rule != NULL;
}

void *malloc(size_t size) {
    return is_refused(__builtin_return_address(0)) ? NULL : __libc_malloc(size);
}

void *calloc(size_t count, size_t size) {
    return is_refused(__builtin_return_address(0)) ? NULL : __libc_calloc(count, size);
}

void *realloc(void *block, size_t size) {
    return is_refused(__builtin_return_address(0)) ? NULL : __libc_realloc(block, size);
}

void *aligned_alloc(size_t alignment, size_t size) {
    return is_refused(__builtin_return_address(0)) ? NULL : __libc_memalign(alignment, size);
}

int posix_memalign(void **block, size_t alignment, size_t size) {
    if (is_refused(__builtin_return_address(0)))
        return ENOMEM;
    *block = __libc_memalign(alignment, size);
    return *block ? 0 : ENOMEM;
}

/* How many of the bytes a call may move. */
static size_t moved(const struct rule *rule, size_t size) {
    if (!rule || rule->how < 0 || size == 0)
        return size;
    return rule->how < 2 ? (size_t)rule->how : (size + 1) / 2;
}

ssize_t read(int file, void *bytes, size_t size) {
    const struct rule *rule = met(READ, __builtin_return_address(0));
    if (rule && rule->how < 0) {
        errno = (int)-rule->how;
        return -1;
    }
    return __read(file, bytes, moved(rule, size));
}

ssize_t write(int file, const void *bytes, size_t size) {
    const struct rule *rule = met(WRITE, __builtin_return_address(0));
    if (rule && rule->how < 0) {
        errno = (int)-rule->how;
        return -1;
    }
    return rule && rule->how == 0 ? 0 : __write(file, bytes, moved(rule, size));
}

int pthread_create(pthread_t *thread, const pthread_attr_t *how, void *(*run)(void *), void *given) {
    static int (*start)(pthread_t *, const pthread_attr_t *, void *(*)(void *), void *);
    const struct rule *rule = met(THREAD, __builtin_return_address(0));
    if (rule)
        return (int)-rule->how;
    if (!start)
        *(void **)&start = dlsym(RTLD_NEXT, "pthread_create");
    return start(thread, how, run, given);
}
