/* Refuses one call of the program that it is loaded into: the request for memory, the read of standard input or the
   write to standard output whose number stands in REFUSED_MEMORY, REFUSED_READ or REFUSED_WRITE. It says so on
   standard error. Reads and writes move at most PIECE bytes, where it stands there, so that there are many of them.
   Built and used by bench/refused_memory.py. */
#define _GNU_SOURCE
#include <errno.h>
#include <stdatomic.h>
#include <stddef.h>
#include <stdlib.h>
#include <sys/syscall.h>
#include <unistd.h>

extern void *__libc_malloc(size_t size);
extern void *__libc_calloc(size_t count, size_t size);
extern void *__libc_realloc(void *old, size_t size);
extern void *__libc_memalign(size_t align, size_t size);

static atomic_long requests, reads, writes;

static int is_refused(atomic_long *made, const char *name) {
  const char *number = getenv(name);
  if (number == NULL || atomic_fetch_add(made, 1) + 1 != atol(number)) return 0;
  return syscall(SYS_write, 2, "refused\n", 8) == 8;
}

static int no_memory(void) { return is_refused(&requests, "REFUSED_MEMORY"); }

void *malloc(size_t size) { return no_memory() ? NULL : __libc_malloc(size); }
void *calloc(size_t count, size_t size) { return no_memory() ? NULL : __libc_calloc(count, size); }
void *realloc(void *old, size_t size) { return no_memory() ? NULL : __libc_realloc(old, size); }
void *aligned_alloc(size_t align, size_t size) { return no_memory() ? NULL : __libc_memalign(align, size); }

int posix_memalign(void **out, size_t align, size_t size) {
  void *got = no_memory() ? NULL : __libc_memalign(align, size);
  if (got == NULL) return ENOMEM;
  *out = got;
  return 0;
}

static size_t piece(size_t count) {
  const char *most = getenv("PIECE");
  return most == NULL || count <= (size_t)atol(most) ? count : (size_t)atol(most);
}

static ssize_t moved(long number, int file, void *bytes, size_t count, atomic_long *made, const char *name) {
  if (is_refused(made, name)) {
    errno = EIO;
    return -1;
  }
  return syscall(number, file, bytes, piece(count));
}

ssize_t read(int file, void *bytes, size_t count) {
  return file == 0 ? moved(SYS_read, file, bytes, count, &reads, "REFUSED_READ") : syscall(SYS_read, file, bytes, count);
}

ssize_t write(int file, const void *bytes, size_t count) {
  return file == 1 ? moved(SYS_write, file, (void *)bytes, count, &writes, "REFUSED_WRITE") : syscall(SYS_write, file, bytes, count);
}

ssize_t __write(int file, const void *bytes, size_t count) { return write(file, bytes, count); }
