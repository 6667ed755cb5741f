// Answers requests from standard input through mifdagus.h, so that a test can give the calls any bytes and any sizes.
// A request: the first letter of a job (G for generate_run, P for print), a number and the sizes of x, of y, of the source and of the buffer, each of 8
// bytes, and the bytes of x, y and the source; a size of 2^64 - 1 stands for a null pointer with the size 0.
// An answer: the status, `needed` in 8 bytes, and the buffer. A byte that was changed outside of the buffer ends the program with 9.
#include "mifdagus.h"
#include <stdio.h>
#include <stdlib.h>

enum { GUARD = 64, MARK = 0xa5 };

static uint64_t number_in(void) {
  uint64_t number = 0;
  if (fread(&number, sizeof number, 1, stdin) != 1) exit(8);
  return number;
}

// Reads so many bytes into a block of just that size, with a byte 0 behind them for a text.
static char *bytes_in(uint64_t size, int is_text) {
  char *bytes;
  if (size == UINT64_MAX) return NULL;
  bytes = malloc(size || is_text ? size + (size_t)is_text : 1);
  if (!bytes || fread(bytes, 1, size, stdin) != size) exit(8);
  if (is_text) bytes[size] = 0;
  return bytes;
}

static size_t plain(uint64_t size) { return size == UINT64_MAX ? 0 : (size_t)size; }

static mifdagus_status ask(int job, uint64_t number, const char *x, const char *y, const char *source, size_t size, char *reply,
                           size_t room, size_t *needed) {
  switch (job) {
    case 'r': return mifdagus_replay(source, size, reply, room, needed);
    case 'c': return mifdagus_check(source, size, reply, room, needed);
    case 'l': return mifdagus_lint(source, size, reply, room, needed);
    case 's': return mifdagus_summary(source, size, reply, room, needed);
    case 'P': return mifdagus_print(source, size, reply, room, needed);
    case 'j': return mifdagus_judge(source, size, reply, room, needed);
    case 'p': return mifdagus_pages(source, size, reply, room, needed);
    case 'i': return mifdagus_inspect(number, source, size, reply, room, needed);
    case 'h': return mifdagus_hit(number, x, y, source, size, reply, room, needed);
    case 'g': return mifdagus_generate(number, reply, room, needed);
    case 'G': return mifdagus_generate_run(number, reply, room, needed);
    default: exit(8);
  }
}

static void answer(int job) {
  uint64_t number = number_in(), x_size = number_in(), y_size = number_in(), size = number_in(), room = number_in(), told;
  char *x = bytes_in(x_size, 1), *y = bytes_in(y_size, 1), *source = bytes_in(size, 0), *block = malloc(plain(room) + 2 * GUARD);
  size_t needed = 77, at;
  int status;
  if (!block) exit(8);
  memset(block, MARK, plain(room) + 2 * GUARD);
  status = ask(job, number, x, y, source, plain(size), room == UINT64_MAX ? NULL : block + GUARD, plain(room), &needed);
  for (at = 0; at < GUARD; at++)
    if ((unsigned char)block[at] != MARK || (unsigned char)block[GUARD + plain(room) + at] != MARK) exit(9);
  told = needed;
  putchar(status);
  fwrite(&told, sizeof told, 1, stdout);
  fwrite(block + GUARD, 1, plain(room), stdout);
  fflush(stdout);
  free(x), free(y), free(source), free(block);
}

int main(void) {
  int job;
  while ((job = getchar()) != EOF) answer(job);
  return 0;
}
