// Makes calls of the system or requests for memory fail, for bench/edge. EDGE_CALL=N fails the Nth call, by
// EDGE_ERRNO, and each one after it where EDGE_ON is set; EDGE_MEMORY=N refuses the Nth request for memory likewise.
// EDGE_EVERY=SEED interrupts half of all calls, at random. EDGE_COUNT names a file for the counts.
#define _GNU_SOURCE
#include <dlfcn.h>
#include <errno.h>
#include <fcntl.h>
#include <stdarg.h>
#include <stdio.h>
#include <stdlib.h>
#include <string.h>
#include <sys/stat.h>
#include <sys/types.h>
#include <unistd.h>
extern void *__libc_malloc(size_t);
extern void *__libc_realloc(void *, size_t);
extern void *__libc_calloc(size_t, size_t);
static long call_at, memory_at, calls, requests;
static int on, error_number = EIO, every, ready;
static unsigned long seed = 42;
static char count_name[4096];
__attribute__((constructor)) static void begin(void) {
    char *text;
    if ((text = getenv("EDGE_CALL"))) call_at = atol(text);
    if ((text = getenv("EDGE_MEMORY"))) memory_at = atol(text);
    if ((text = getenv("EDGE_ERRNO"))) error_number = atoi(text);
    if ((text = getenv("EDGE_COUNT"))) strncpy(count_name, text, sizeof count_name - 1);
    on = getenv("EDGE_ON") != NULL;
    if ((text = getenv("EDGE_EVERY"))) { every = 1; seed += atol(text); }
    requests = calls = 0;
    ready = 1;
}
__attribute__((destructor)) static void end(void) {
    ready = 0;
    if (count_name[0]) {
        FILE *file = fopen(count_name, "w");
        if (file) { fprintf(file, "%ld %ld\n", calls, requests); fclose(file); }
    }
}
static int fails(void) {
    if (!ready) return 0;
    if (every) {
        seed = seed * 6364136223846793005ul + 1442695040888963407ul;
        if (seed >> 63) { errno = EINTR; return 1; }
        return 0;
    }
    calls++;
    if (call_at && (calls == call_at || (on && calls > call_at))) { errno = error_number; return 1; }
    return 0;
}
static int refused(void) {
    if (!ready) return 0;
    requests++;
    return memory_at && (requests == memory_at || (on && requests > memory_at));
}
void *malloc(size_t size) { return refused() ? NULL : __libc_malloc(size); }
void *realloc(void *old, size_t size) { return refused() ? NULL : __libc_realloc(old, size); }
void *calloc(size_t count, size_t size) { return refused() ? NULL : __libc_calloc(count, size); }
#define REAL(name, type) static __typeof__(type) *real_; if (!real_) real_ = (__typeof__(type) *)dlsym(RTLD_NEXT, name)
int open(const char *path, int flags, ...) {
    va_list more; va_start(more, flags); mode_t mode = va_arg(more, mode_t); va_end(more);
    REAL("open", int (const char *, int, mode_t));
    return fails() ? -1 : real_(path, flags, mode);
}
ssize_t read(int fd, void *to, size_t size) {
    REAL("read", ssize_t (int, void *, size_t));
    return fails() ? -1 : real_(fd, to, size);
}
ssize_t write(int fd, const void *from, size_t size) {
    REAL("write", ssize_t (int, const void *, size_t));
    return fails() ? -1 : real_(fd, from, size);
}
int statx(int fd, const char *path, int flags, unsigned mask, struct statx *found) {
    REAL("statx", int (int, const char *, int, unsigned, struct statx *));
    return fails() ? -1 : real_(fd, path, flags, mask, found);
}
int mkdir(const char *path, mode_t mode) {
    REAL("mkdir", int (const char *, mode_t));
    return fails() ? -1 : real_(path, mode);
}
int unlink(const char *path) {
    REAL("unlink", int (const char *));
    return fails() ? -1 : real_(path);
}
int ftruncate(int fd, off_t size) {
    REAL("ftruncate", int (int, off_t));
    return fails() ? -1 : real_(fd, size);
}
off_t lseek(int fd, off_t at, int whence) {
    REAL("lseek", off_t (int, off_t, int));
    return fails() ? -1 : real_(fd, at, whence);
}
