// Stands in front of the C library and refuses one call of a program: the n-th that asks for memory (REFUSE=memory),
// that opens or reads a file (read) or that opens one for writing, writes or cuts it (write); or it has the n-th read or
// write of several bytes move one (short). n is in REFUSE_AT. Where there was an n-th one, the file REFUSE_MARK is made.
#define _GNU_SOURCE
#include <errno.h>
#include <fcntl.h>
#include <stdarg.h>
#include <stdlib.h>
#include <string.h>
#include <sys/syscall.h>
#include <sys/uio.h>
#include <unistd.h>

extern void *__libc_malloc(size_t size);
extern void *__libc_calloc(size_t count, size_t size);
extern void *__libc_realloc(void *old, size_t size);
extern void *__libc_memalign(size_t step, size_t size);

enum kind { NONE, MEMORY, READ, WRITE, SHORT };

static enum kind refused = NONE;
static long left = 0;
static const char *mark = 0;

// The calls are counted from the start of the program, behind the loader.
__attribute__((constructor)) static void begin(void) {
  const char *kind = getenv("REFUSE"), *at = getenv("REFUSE_AT");
  mark = getenv("REFUSE_MARK");
  left = at ? atol(at) : 0;
  if (!kind || !mark || left < 1) return;
  refused = !strcmp(kind, "memory") ? MEMORY : !strcmp(kind, "read") ? READ : !strcmp(kind, "write") ? WRITE : !strcmp(kind, "short") ? SHORT : NONE;
}

// Whether this call of the kind is the one.
static int is_it(enum kind kind) {
  if (kind != refused || __sync_sub_and_fetch(&left, 1) != 0) return 0;
  long made = syscall(SYS_openat, AT_FDCWD, mark, O_WRONLY | O_CREAT, 0600);
  if (made >= 0) syscall(SYS_close, made);
  return 1;
}

static int fails(int cause) {
  errno = cause;
  return -1;
}

void *malloc(size_t size) { return is_it(MEMORY) ? (errno = ENOMEM, (void *)0) : __libc_malloc(size); }
void *calloc(size_t count, size_t size) { return is_it(MEMORY) ? (errno = ENOMEM, (void *)0) : __libc_calloc(count, size); }
void *realloc(void *old, size_t size) { return is_it(MEMORY) ? (errno = ENOMEM, (void *)0) : __libc_realloc(old, size); }
void *aligned_alloc(size_t step, size_t size) { return is_it(MEMORY) ? (errno = ENOMEM, (void *)0) : __libc_memalign(step, size); }
int posix_memalign(void **into, size_t step, size_t size) {
  if (is_it(MEMORY)) return ENOMEM;
  *into = __libc_memalign(step, size);
  return *into ? 0 : ENOMEM;
}

static int opened(int folder, const char *name, int flags, mode_t mode) {
  if (is_it((flags & O_ACCMODE) == O_RDONLY ? READ : WRITE)) return fails(EIO);
  return syscall(SYS_openat, folder, name, flags, mode);
}

#define MODE(flags) \
  mode_t mode = 0; \
  if ((flags) & (O_CREAT | O_TMPFILE)) { va_list more; va_start(more, flags); mode = va_arg(more, int); va_end(more); }

int open(const char *name, int flags, ...) { MODE(flags) return opened(AT_FDCWD, name, flags, mode); }
int open64(const char *name, int flags, ...) { MODE(flags) return opened(AT_FDCWD, name, flags, mode); }
int openat(int folder, const char *name, int flags, ...) { MODE(flags) return opened(folder, name, flags, mode); }
int openat64(int folder, const char *name, int flags, ...) { MODE(flags) return opened(folder, name, flags, mode); }

off_t lseek(int file, off_t place, int from) { return is_it(READ) ? fails(EIO) : syscall(SYS_lseek, file, place, from); }
off_t lseek64(int file, off_t place, int from) { return lseek(file, place, from); }

static size_t moved(size_t size) { return size > 1 && is_it(SHORT) ? 1 : size; }

ssize_t read(int file, void *into, size_t size) { return is_it(READ) ? fails(EIO) : syscall(SYS_read, file, into, moved(size)); }
ssize_t pread(int file, void *into, size_t size, off_t place) { return is_it(READ) ? fails(EIO) : syscall(SYS_pread64, file, into, moved(size), place); }
ssize_t pread64(int file, void *into, size_t size, off_t place) { return pread(file, into, size, place); }

ssize_t write(int file, const void *from, size_t size) { return is_it(WRITE) ? fails(EIO) : syscall(SYS_write, file, from, moved(size)); }
ssize_t pwrite(int file, const void *from, size_t size, off_t place) { return is_it(WRITE) ? fails(EIO) : syscall(SYS_pwrite64, file, from, moved(size), place); }
ssize_t writev(int file, const struct iovec *from, int count) {
  if (is_it(WRITE)) return fails(EIO);
  if (count > 0 && moved(from[0].iov_len) != from[0].iov_len) return syscall(SYS_write, file, from[0].iov_base, 1);
  return syscall(SYS_writev, file, from, count);
}
int ftruncate(int file, off_t size) { return is_it(WRITE) ? fails(EIO) : syscall(SYS_ftruncate, file, size); }
