// Memory for heap.c in a test: an array that grows like that of a module.
#include <stdlib.h>
#include <string.h>
typedef unsigned long size;
enum { HERE_MOST = 64 << 20 };
static unsigned char here[HERE_MOST] __attribute__((aligned(16)));
static size here_end = 0;
static size memory_begin(void) { return (size)here; }
static size memory_end(void) { return (size)here + here_end; }
static int grow_memory(size bytes) {
  bytes = (bytes + 65535) / 65536 * 65536;
  if (bytes > HERE_MOST - here_end) return 0;
  here_end += bytes;
  return 1;
}
