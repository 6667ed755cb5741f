// Preloaded into the program: with MOST_BYTES=n no read or write carries more than n bytes; with FAIL_READ=n or FAIL_WRITE=n the n-th read
// of standard input or the n-th write to standard output fails, and all later ones. A byte on descriptor 3 says that one failed.
#define _GNU_SOURCE
#include <dlfcn.h>
#include <errno.h>
#include <stdlib.h>
#include <sys/syscall.h>
#include <unistd.h>

static long number_of(const char *name) {
  const char *said = getenv(name);
  return said ? atol(said) : 0;
}

static int fails(const char *name, long *count) {
  long at = number_of(name);
  if (!at || ++*count < at) return 0;
  syscall(SYS_write, 3, "f", 1);
  errno = EIO;
  return 1;
}

static size_t part(size_t size) {
  long most = number_of("MOST_BYTES");
  return most && size > (size_t)most ? (size_t)most : size;
}

ssize_t read(int file, void *to, size_t size) {
  static long count;
  if (file == 0 && fails("FAIL_READ", &count)) return -1;
  return syscall(SYS_read, file, to, file == 0 ? part(size) : size);
}

ssize_t write(int file, const void *from, size_t size) {
  static long count;
  if (file == 1 && fails("FAIL_WRITE", &count)) return -1;
  return syscall(SYS_write, file, from, file == 1 ? part(size) : size);
}
