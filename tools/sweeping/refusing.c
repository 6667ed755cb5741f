// Refuses each request for memory of each call in turn: once alone, and once with all that come after it in the call. The call must then end
// with MIFDAGUS_NO_MEMORY, the buffer unchanged and `needed` 0, or with its usual answer; and all memory must be given back either way.
// Requests of one call beyond MOST are tried at every n-th only. Input: for each text the letter of a job, its size in 8 bytes, and its bytes.
// For each text a line is written: how many requests its call makes, how many refused calls ended for lack of memory, how many as usual, and
// how many otherwise. Linked with -Wl,--wrap for malloc, realloc and free, which only the library's own calls go through.
#include "mifdagus.h"
#include <stdio.h>
#include <stdlib.h>

enum { ROOM = 1 << 20, MOST = 400, MARK = 0xa5 };
void *__real_malloc(size_t);
void *__real_realloc(void *, size_t);
void __real_free(void *);
static long asked, refused, held;
static int goes_on, is_counting;

static int is_refused(void) {
  if (!is_counting) return 0;
  asked++;
  return refused > 0 && (asked == refused || (goes_on && asked > refused));
}

void *__wrap_malloc(size_t size) {
  void *at = is_refused() ? NULL : __real_malloc(size);
  if (is_counting && at) held++;
  return at;
}

void *__wrap_realloc(void *old, size_t size) {
  void *at = is_refused() ? NULL : __real_realloc(old, size);
  if (is_counting && !old && at) held++;
  return at;
}

void __wrap_free(void *at) {
  if (is_counting && at) held--;
  __real_free(at);
}

static uint8_t whole[ROOM], reply[ROOM];

static int call(int job, const uint8_t *text, size_t size, uint8_t *to, size_t *needed) {
  int status;
  asked = held = 0, is_counting = 1;
  switch (job) {
    case 'c': status = mifdagus_check(text, size, to, ROOM, needed); break;
    case 'l': status = mifdagus_lint(text, size, to, ROOM, needed); break;
    case 's': status = mifdagus_summary(text, size, to, ROOM, needed); break;
    case 'P': status = mifdagus_print(text, size, to, ROOM, needed); break;
    case 'j': status = mifdagus_judge(text, size, to, ROOM, needed); break;
    case 'p': status = mifdagus_pages(text, size, to, ROOM, needed); break;
    case 'i': status = mifdagus_inspect(1, text, size, to, ROOM, needed); break;
    case 'h': status = mifdagus_hit(1, "5px", "5px", text, size, to, ROOM, needed); break;
    default: status = mifdagus_replay(text, size, to, ROOM, needed);
  }
  is_counting = 0;
  return status;
}

static int is_blank(const uint8_t *from, size_t size) {
  for (size_t at = 0; at < size; at++)
    if (from[at] != MARK) return 0;
  return 1;
}

// 0: for lack of memory, 1: as usual, 2: otherwise.
static int end_of(int status, size_t needed, int usual, size_t usually_needed) {
  if (held != 0) return 2;
  if (status == MIFDAGUS_NO_MEMORY) return needed == 0 && is_blank(reply, ROOM) ? 0 : 2;
  if (status != usual || needed != usually_needed) return 2;
  if (!mifdagus_is_whole((mifdagus_status)status)) return 1;
  return memcmp(reply, whole, needed) == 0 && is_blank(reply + needed, ROOM - needed) ? 1 : 2;
}

static void try_text(int job, const uint8_t *text, size_t size) {
  size_t usually_needed = 0, needed;
  long requests, ends[3] = {0}, step;
  int usual;
  refused = 0;
  usual = call(job, text, size, whole, &usually_needed);
  requests = asked, step = requests > MOST ? requests / MOST : 1;
  if (held != 0) ends[2]++;
  for (long at = 1; at <= requests; at += step)
    for (goes_on = 0; goes_on < 2; goes_on++) {
      memset(reply, MARK, usually_needed + 64 < ROOM ? usually_needed + 64 : ROOM);
      refused = at, needed = 77;
      int status = call(job, text, size, reply, &needed);
      ends[end_of(status, needed, usual, usually_needed)]++;
      if (status != MIFDAGUS_NO_MEMORY) memset(reply, MARK, ROOM);
    }
  printf("%ld %ld %ld %ld %d\n", requests, ends[0], ends[1], ends[2], usual);
  fflush(stdout);
}

int main(void) {
  int job;
  memset(reply, MARK, ROOM);
  while ((job = getchar()) != EOF) {
    uint64_t size;
    if (fread(&size, sizeof size, 1, stdin) != 1) return 8;
    uint8_t *text = __real_malloc(size + 1);
    if (!text || fread(text, 1, size, stdin) != size) return 8;
    try_text(job, text, size);
    __real_free(text);
  }
  return 0;
}
