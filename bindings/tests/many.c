// Replays many short texts, each twice, and compares the two answers. The texts are lines of the given files and random bytes, put together
// at random; the same SEED gives the same texts. Every EACH-th text goes to standard output with its answer, for another program to check:
// the size of the text and the text, the status, and the size of the reply and the reply; sizes have 8 bytes.
// A signal to end (SIGTERM) ends it with what has run until then. Usage: many COUNT SEED EACH FILE ..
#include "mifdagus.h"
#include <signal.h>
#include <stdio.h>
#include <stdlib.h>
#include <time.h>

enum { MOST_LINES = 200000, ROOM = 1 << 16, MOST_TEXT = 2000 };
static char *lines[MOST_LINES], reply[ROOM], again[ROOM], text[MOST_TEXT + 64];
static size_t sizes[MOST_LINES], lines_count;
static uint64_t state;
static volatile sig_atomic_t is_ended;

static void end(int number) { is_ended = number; }

static uint64_t draw(uint64_t below) {
  state ^= state << 13, state ^= state >> 7, state ^= state << 17;
  return state % below;
}

static void read_lines(const char *path) {
  FILE *file = fopen(path, "rb");
  char line[1024];
  if (!file) fprintf(stderr, "many: %s can't be read\n", path), exit(1);
  while (fgets(line, sizeof line, file) && lines_count < MOST_LINES) {
    size_t size = strlen(line);
    lines[lines_count] = malloc(size + 1);
    memcpy(lines[lines_count], line, size + 1);
    sizes[lines_count++] = size;
  }
  fclose(file);
}

static size_t put_lines(size_t at, size_t count) {
  size_t from = draw(lines_count);
  for (size_t k = 0; k < count; k++) {
    size_t line = draw(8) ? (from + k) % lines_count : draw(lines_count);
    if (at + sizes[line] > MOST_TEXT) break;
    memcpy(text + at, lines[line], sizes[line]);
    at += sizes[line];
  }
  return at;
}

// One in ten is of random bytes, one in ten has some of its bytes changed, one in ten ends early.
static size_t make_text(void) {
  static const char head[] = "script 1\n";
  size_t at = 0, kind = draw(10);
  if (kind == 0) {
    at = draw(60);
    for (size_t k = 0; k < at; k++) text[k] = (char)draw(256);
    return at;
  }
  memcpy(text, head, sizeof head - 1);
  if (draw(20) == 0) text[7] = '2';
  at = put_lines(sizeof head - 1, 1 + draw(12));
  if (kind == 1)
    for (size_t k = draw(4) + 1; k > 0; k--) text[draw(at)] = (char)(draw(3) ? 32 + draw(95) : draw(256));
  return kind == 2 ? draw(at + 1) : at;
}

static void tell(size_t size, int status, size_t needed) {
  uint64_t number = size;
  fwrite(&number, sizeof number, 1, stdout), fwrite(text, 1, size, stdout);
  number = needed;
  putchar(status), fwrite(&number, sizeof number, 1, stdout), fwrite(reply, 1, needed, stdout);
}

int main(int count, char **words) {
  uint64_t number = count > 4 ? strtoull(words[1], NULL, 10) : 0, each, differ = 0, statuses[8] = {0}, bytes = 0;
  if (!number) fprintf(stderr, "usage: many COUNT SEED EACH FILE ..\n"), exit(6);
  state = strtoull(words[2], NULL, 10) * 2654435761u + 88172645463325252u, each = strtoull(words[3], NULL, 10);
  for (int at = 4; at < count; at++) read_lines(words[at]);
  signal(SIGTERM, end);
  clock_t began = clock();
  uint64_t k = 0;
  for (; k < number && !is_ended; k++) {
    size_t size = make_text(), needed = 0, needed_again = 0;
    int status = mifdagus_replay(text, size, reply, sizeof reply, &needed);
    int other = mifdagus_replay(text, size, again, sizeof again, &needed_again);
    int is_told = mifdagus_is_whole((mifdagus_status)status);
    statuses[status & 7]++, bytes += size;
    if (status != other || needed != needed_again || (is_told && memcmp(reply, again, needed))) differ++;
    if (each && k % each == 0 && is_told) tell(size, status, needed);
  }
  double seconds = (double)(clock() - began) / CLOCKS_PER_SEC;
  fprintf(stderr, "%llu texts of %.0f bytes on average, each twice, in %.1f s of a processor: %.0f calls a second; %llu differ; statuses",
          (unsigned long long)k, (double)bytes / (double)k, seconds, 2 * (double)k / seconds, (unsigned long long)differ);
  for (int status = 0; status < 8; status++)
    if (statuses[status]) fprintf(stderr, " %d: %llu", status, (unsigned long long)statuses[status]);
  fprintf(stderr, "\n");
  return differ ? 1 : 0;
}
