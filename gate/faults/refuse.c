// Put before the C library by LD_PRELOAD. Refuses one request of the program: that of the kind and the number, counted from 1, that the
// variable REFUSE has ("memory 3"), as a system does that has no memory, starts no thread, or has a broken device. It then writes one byte
// to the file descriptor that the variable REFUSED_TO has: 'f' where the program's first thread made the request, else 'w'.
//
// It also counts the blocks of memory that the program takes and gives back, and writes "kept 0" and a line feed to that file descriptor
// when the program ends. What the C library takes for itself, as for its threads, is not counted: that is not the program's to give back.
#define _GNU_SOURCE
#include <dlfcn.h>
#include <errno.h>
#include <link.h>
#include <pthread.h>
#include <stdatomic.h>
#include <stdint.h>
#include <stdio.h>
#include <stdlib.h>
#include <string.h>
#include <sys/syscall.h>
#include <sys/uio.h>
#include <unistd.h>

extern void *__libc_malloc(size_t);
extern void *__libc_calloc(size_t, size_t);
extern void *__libc_realloc(void *, size_t);
extern void *__libc_memalign(size_t, size_t);
extern void __libc_free(void *);

static char kind[16];
static atomic_long left;
static int notice_to;

// Where the program's code stands, and how many blocks it has.
static uintptr_t code_begins, code_ends;
static atomic_long kept;

static int find_code(struct dl_phdr_info *module, size_t size, void *unused) {
    (void)size, (void)unused;
    for (int i = 0; i < module->dlpi_phnum; i++) {
        const ElfW(Phdr) *part = &module->dlpi_phdr[i];
        if (part->p_type != PT_LOAD || !(part->p_flags & PF_X)) continue;
        uintptr_t begins = module->dlpi_addr + part->p_vaddr;
        if (!code_begins || begins < code_begins) code_begins = begins;
        if (begins + part->p_memsz > code_ends) code_ends = begins + part->p_memsz;
    }
    return 1;  // the program is the first module
}

__attribute__((constructor)) static void begin(void) {
    const char *asked = getenv("REFUSE"), *to = getenv("REFUSED_TO");
    const char *number = asked ? strchr(asked, ' ') : NULL;
    dl_iterate_phdr(find_code, NULL);
    if (!number || !to || number - asked >= (long)sizeof kind) return;
    memcpy(kind, asked, number - asked);
    notice_to = atoi(to);
    atomic_store(&left, atol(number));
}

// (each request of the kind counts, from whichever thread it comes; before the number is read none does)
static int is_refused(const char *requested) {
    if (strcmp(kind, requested) != 0 || atomic_fetch_sub(&left, 1) != 1) return 0;
    return syscall(SYS_write, notice_to, syscall(SYS_gettid) == getpid() ? "f" : "w", 1) == 1 || (abort(), 1);
}

static void *memory_refused(void) {
    errno = ENOMEM;
    return NULL;
}

static ssize_t device_failed(void) {
    errno = EIO;
    return -1;
}

// (a macro, since the address is that of the function in which it stands)
#define CALLED_BY_PROGRAM \
    ((uintptr_t)__builtin_return_address(0) >= code_begins && (uintptr_t)__builtin_return_address(0) < code_ends)

static void *taken(void *block, int by_program) {
    if (block && by_program) atomic_fetch_add(&kept, 1);
    return block;
}

void *malloc(size_t size) { return is_refused("memory") ? memory_refused() : taken(__libc_malloc(size), CALLED_BY_PROGRAM); }

void *calloc(size_t count, size_t size) {
    return is_refused("memory") ? memory_refused() : taken(__libc_calloc(count, size), CALLED_BY_PROGRAM);
}

void *realloc(void *block, size_t size) {
    int by_program = CALLED_BY_PROGRAM;
    if (is_refused("memory")) return memory_refused();
    void *moved = __libc_realloc(block, size);
    // (a block that is made anew, or given back where nothing is left of it)
    if (!block) return taken(moved, by_program);
    if (!moved && size == 0 && by_program) atomic_fetch_sub(&kept, 1);
    return moved;
}

void *aligned_alloc(size_t align, size_t size) {
    return is_refused("memory") ? memory_refused() : taken(__libc_memalign(align, size), CALLED_BY_PROGRAM);
}

int posix_memalign(void **block, size_t align, size_t size) {
    if (is_refused("memory")) return ENOMEM;
    *block = taken(__libc_memalign(align, size), CALLED_BY_PROGRAM);
    return *block ? 0 : ENOMEM;
}

void free(void *block) {
    if (block && CALLED_BY_PROGRAM) atomic_fetch_sub(&kept, 1);
    __libc_free(block);
}

// Says how many blocks the program keeps, once.
__attribute__((destructor)) static void end(void) {
    static atomic_flag is_said = ATOMIC_FLAG_INIT;
    char line[32];
    if (!notice_to || atomic_flag_test_and_set(&is_said)) return;
    int size = snprintf(line, sizeof line, "kept %ld\n", atomic_load(&kept));
    if (syscall(SYS_write, notice_to, line, size) != size) abort();
}

void _exit(int status) {
    end();
    syscall(SYS_exit_group, status);
    __builtin_unreachable();
}

int pthread_create(pthread_t *thread, const pthread_attr_t *how, void *(*run)(void *), void *with) {
    static int (*next)(pthread_t *, const pthread_attr_t *, void *(*)(void *), void *);
    if (is_refused("thread")) return EAGAIN;
    if (!next) next = dlsym(RTLD_NEXT, "pthread_create");
    return next(thread, how, run, with);
}

static const char *kind_of_write(int to) { return to == 1 ? "write" : to == 2 ? "message" : ""; }

ssize_t read(int from, void *bytes, size_t count) {
    if (from == 0 && is_refused("read")) return device_failed();
    return syscall(SYS_read, from, bytes, count);
}

ssize_t readv(int from, const struct iovec *parts, int count) {
    if (from == 0 && is_refused("read")) return device_failed();
    return syscall(SYS_readv, from, parts, count);
}

ssize_t write(int to, const void *bytes, size_t count) {
    if (is_refused(kind_of_write(to))) return device_failed();
    return syscall(SYS_write, to, bytes, count);
}

ssize_t writev(int to, const struct iovec *parts, int count) {
    if (is_refused(kind_of_write(to))) return device_failed();
    return syscall(SYS_writev, to, parts, count);
}
