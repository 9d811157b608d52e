// Stands before the C library (LD_PRELOAD) and refuses one call of a program: the N-th allocation, or the N-th call of a
// kind on the image files hdiskN.img. What it does is said by REFUSE="KIND N HOW", and how many calls of each kind there
// were is written to the file that REFUSE_COUNTS names.
//
//   KIND  alloc, open, lock, stat, seek, read, write, sync, or any: of the image files each call but alloc
//   HOW   once    that call fails with EIO (ENOMEM for alloc)
//         gone    each later call on that file fails too
//         lost    each later call on each file fails too
//         half    a read or write moves half of its sectors, and the next call on that file fails
//         die     the program ends before that call
//         torn    a write moves half of its sectors, and the program ends
#define _GNU_SOURCE
#include <dlfcn.h>
#include <errno.h>
#include <fcntl.h>
#include <stdarg.h>
#include <stdio.h>
#include <stdlib.h>
#include <string.h>
#include <sys/file.h>
#include <sys/stat.h>
#include <sys/syscall.h>
#include <unistd.h>

enum { ALLOC, OPEN, LOCK, STAT, SEEK, READ, WRITE, SYNC, ANY, KINDS };
static const char *const NAMES[KINDS] = {"alloc", "open", "lock", "stat", "seek", "read", "write", "sync", "any"};

static long counts[KINDS];
static int kind = -1;
static long at;
static char how[8];
static char images[1024];  // whether a descriptor is that of an image
static char gone[1024];    // whether all its calls fail
static int all_gone;
static int half_next[1024];

extern void *__libc_malloc(size_t);
extern void *__libc_calloc(size_t, size_t);
extern void *__libc_realloc(void *, size_t);
extern void *__libc_memalign(size_t, size_t);

__attribute__((constructor)) static void begin(void) {
    const char *said = getenv("REFUSE");
    char name[8];
    if (said && sscanf(said, "%7s %ld %7s", name, &at, how) == 3)
        for (int k = 0; k < KINDS; k++)
            if (!strcmp(name, NAMES[k])) kind = k;
}

static void tell(void) {
    const char *path = getenv("REFUSE_COUNTS");
    char text[512];
    int length = 0, file;
    if (!path || (file = open(path, O_WRONLY | O_CREAT | O_TRUNC, 0666)) < 0) return;
    for (int k = 0; k < KINDS; k++) length += snprintf(text + length, sizeof text - length, "%s %ld\n", NAMES[k], counts[k]);
    long (*put)(int, const void *, size_t) = dlsym(RTLD_NEXT, "write");
    put(file, text, length);
    close(file);
}

__attribute__((destructor)) static void end(void) { tell(); }

static int is(const char *what) { return !strcmp(how, what); }

// Counts a call, and says whether it is the one.
static int comes(int which) {
    counts[which]++;
    if (which != ALLOC) counts[ANY]++;
    if (kind == which) return counts[which] == at;
    return kind == ANY && which != ALLOC && counts[ANY] == at;
}

// A program that rt builds ends by this call, behind which no destructor runs.
void _exit(int status) {
    tell();
    syscall(SYS_exit_group, status);
    __builtin_unreachable();
}

static void die(void) { _exit(137); }

// Whether a call on an image fails as a whole.
static int fails(int which, int file) {
    int now = comes(which);
    if (all_gone || gone[file]) return 1;
    if (half_next[file]) {
        half_next[file] = 0;
        return 1;
    }
    if (!now) return 0;
    if (is("die")) die();
    if (is("gone")) gone[file] = 1;
    if (is("lost")) all_gone = 1;
    if ((is("half") || is("torn")) && (which == READ || which == WRITE)) return 2;
    if (is("torn")) die();
    return 1;
}

static int is_image(int file) { return file >= 0 && file < 1024 && images[file]; }

void *malloc(size_t bytes) {
    if (comes(ALLOC)) { errno = ENOMEM; return 0; }
    return __libc_malloc(bytes);
}

void *calloc(size_t count, size_t bytes) {
    if (comes(ALLOC)) { errno = ENOMEM; return 0; }
    return __libc_calloc(count, bytes);
}

void *realloc(void *old, size_t bytes) {
    if (comes(ALLOC)) { errno = ENOMEM; return 0; }
    return __libc_realloc(old, bytes);
}

void *aligned_alloc(size_t to, size_t bytes) {
    if (comes(ALLOC)) { errno = ENOMEM; return 0; }
    return __libc_memalign(to, bytes);
}

int posix_memalign(void **out, size_t to, size_t bytes) {
    if (comes(ALLOC)) return ENOMEM;
    *out = __libc_memalign(to, bytes);
    return *out ? 0 : ENOMEM;
}

int open(const char *path, int flags, ...) {
    int (*real)(const char *, int, ...) = dlsym(RTLD_NEXT, "open");
    va_list rest;
    va_start(rest, flags);
    int mode = flags & (O_CREAT | O_TMPFILE) ? va_arg(rest, int) : 0;
    va_end(rest);
    if (strncmp(path, "hdisk", 5)) return real(path, flags, mode);
    int now = comes(OPEN);
    if (now && (is("die") || is("torn"))) die();
    if (now && is("lost")) all_gone = 1;
    if (now || all_gone) { errno = EIO; return -1; }
    int file = real(path, flags, mode);
    if (file >= 0 && file < 1024) images[file] = 1, gone[file] = 0, half_next[file] = 0;
    return file;
}

int close(int file) {
    int (*real)(int) = dlsym(RTLD_NEXT, "close");
    if (file >= 0 && file < 1024) images[file] = 0;
    return real(file);
}

int flock(int file, int what) {
    int (*real)(int, int) = dlsym(RTLD_NEXT, "flock");
    if (is_image(file) && fails(LOCK, file)) { errno = EIO; return -1; }
    return real(file, what);
}

int statx(int file, const char *path, int flags, unsigned int mask, struct statx *out) {
    int (*real)(int, const char *, int, unsigned int, struct statx *) = dlsym(RTLD_NEXT, "statx");
    if (is_image(file) && fails(STAT, file)) { errno = EIO; return -1; }
    return real(file, path, flags, mask, out);
}

off_t lseek(int file, off_t to, int from) {
    off_t (*real)(int, off_t, int) = dlsym(RTLD_NEXT, "lseek");
    if (is_image(file) && fails(SEEK, file)) { errno = EIO; return -1; }
    return real(file, to, from);
}

ssize_t read(int file, void *into, size_t bytes) {
    ssize_t (*real)(int, void *, size_t) = dlsym(RTLD_NEXT, "read");
    int fault = is_image(file) ? fails(READ, file) : 0;
    if (fault == 1) { errno = EIO; return -1; }
    if (fault == 2) { half_next[file] = 1; bytes = bytes / 1024 * 512; }
    return real(file, into, bytes);
}

ssize_t write(int file, const void *from, size_t bytes) {
    ssize_t (*real)(int, const void *, size_t) = dlsym(RTLD_NEXT, "write");
    int fault = is_image(file) ? fails(WRITE, file) : 0;
    if (fault == 1) { errno = EIO; return -1; }
    if (fault == 2) {
        half_next[file] = 1;
        ssize_t moved = bytes < 1024 ? 0 : real(file, from, bytes / 1024 * 512);
        if (is("torn")) die();
        if (!moved) { half_next[file] = 0; errno = EIO; return -1; }
        return moved;
    }
    return real(file, from, bytes);
}

int fdatasync(int file) {
    int (*real)(int) = dlsym(RTLD_NEXT, "fdatasync");
    if (is_image(file) && fails(SYNC, file)) { errno = EIO; return -1; }
    return real(file);
}
