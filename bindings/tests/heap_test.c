// Runs the allocator of bindings/wasm here: random calls, with what each block holds and all heads checked. Usage: heap_test [CALLS]
#define MIFDAGUS_HEAP "../tests/heap_here.h"
#include "../wasm/heap.c"
#include <stdio.h>

enum { SLOTS = 3000, BETWEEN_CHECKS = 5000 };
static unsigned char *slots[SLOTS];
static size sizes[SLOTS];
static unsigned long state = 88172645463325252UL;

static unsigned long draw(unsigned long below) {
  state ^= state << 13, state ^= state >> 7, state ^= state << 17;
  return state % below;
}

static void expect(int holds, const char *otherwise) {
  if (holds) return;
  printf("heap_test: %s\n", otherwise);
  exit(1);
}

// Returns the number of free blocks.
static size check_blocks_in_order(void) {
  size before = 0, count = 0, was_free = 0;
  for (struct block *it = (struct block *)memory_begin(); it != end; it = behind(it)) {
    size is_free = !(it->length & USED);
    expect(it < end, "a block ends behind the end");
    expect(it->before == before, "a block doesn't know the one in front");
    expect(!(is_free && was_free), "two free blocks lie side by side");
    was_free = is_free, count += is_free, before = length_of(it);
  }
  expect(end->before == before, "the end doesn't know the last block");
  return count;
}

static void check_blocks(void) {
  size count = 0;
  if (!end) return;
  for (int bin = 0; bin < BINS; bin++) {
    expect(!bins[bin] == !(filled[bin / 64] >> bin % 64 & 1), "the bit of a bin is wrong");
    for (struct block *it = bins[bin]; it; it = it->next, count++)
      expect(bin_of(it->length) == bin && !(it->length & USED), "a block is in a wrong bin");
  }
  expect(count == check_blocks_in_order(), "a free block is in no bin");
}

static void look(int slot, size count) {
  for (size at = 0; at < count; at++) expect(slots[slot][at] == (unsigned char)(slot + at), "bytes of a block were changed");
}

static void fill(int slot) {
  for (size at = 0; at < sizes[slot]; at++) slots[slot][at] = (unsigned char)(slot + at);
}

// Mostly small, one in ten of some thousand bytes, one in a hundred of some hundred thousand.
static size draw_size(void) {
  unsigned long kind = draw(100);
  return draw(kind == 0 ? 300000 : kind < 10 ? 5000 : 200);
}

static long change(int slot) {
  size wanted = draw_size(), kept = wanted < sizes[slot] ? wanted : sizes[slot];
  struct answer given = rattle_realloc(slots[slot], sizes[slot], wanted, 8);
  if (!given.is_given) return 1;
  slots[slot] = given.at, sizes[slot] = wanted;
  look(slot, kept);
  fill(slot);
  return 0;
}

static long make(int slot) {
  sizes[slot] = draw_size();
  slots[slot] = rattle_alloc(sizes[slot], 8).at;
  expect((size)slots[slot] % 16 == 0, "a block isn't aligned");
  if (!slots[slot]) return 1;
  fill(slot);
  return 0;
}

static void end_block(int slot) {
  rattle_dealloc(slots[slot]);
  slots[slot] = NULL;
}

int main(int count, char **words) {
  long calls = count > 1 ? atol(words[1]) : 1000000, refused = 0;
  for (long call = 0; call < calls; call++) {
    int slot = (int)draw(SLOTS);
    if (slots[slot]) look(slot, sizes[slot]);
    if (!slots[slot]) refused += make(slot);
    else if (draw(3) == 0) refused += change(slot);
    else end_block(slot);
    if (call % BETWEEN_CHECKS == 0) check_blocks();
  }
  for (int slot = 0; slot < SLOTS; slot++)
    if (slots[slot]) end_block(slot);
  check_blocks();
  expect(!end || behind((struct block *)memory_begin()) == end, "free blocks were not joined");
  expect(!rattle_alloc(~(size)0, 1).at && !rattle_alloc((size)1 << 45, 1).at, "more was given than there is");
  check_blocks();
  printf("heap_test: %ld calls, %ld refused, %lu bytes of memory\n", calls, refused, (unsigned long)here_end);
  return 0;
}
