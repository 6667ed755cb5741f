// The memory of the WebAssembly module: what the proved code asks of the C library's allocator. Blocks lie side by side, each behind a head
// with its length and that of the block in front; a block that is given back is joined with its neighbours at once.
// MIFDAGUS_HEAP names a file to be included that says where memory begins and ends and how it grows, so that tests can run it elsewhere.
#ifdef MIFDAGUS_HEAP
#include MIFDAGUS_HEAP
#else
typedef unsigned long size;
extern unsigned char __heap_base;
static size memory_begin(void) { return (size)&__heap_base; }
static size memory_end(void) { return __builtin_wasm_memory_size(0) * 65536; }
static int grow_memory(size bytes) { return __builtin_wasm_memory_grow(0, (bytes + 65535) / 65536) != (size)-1; }
#endif

enum { HEAD = 16, LEAST = 32, BINS = 256, TRIES = 8 };
#define USED ((size)1)
#define MOST ((size)1 << 46)

struct block {
  size before; // the length of the block in front; 0 for the first one
  size length; // with the head; its lowest bit says that the block is in use
  struct block *next, *last; // of a free block: its neighbours in its bin
};
static struct block *bins[BINS], *end; // the end is a block in use without room
static size filled[BINS / 64]; // a bit for each bin that isn't empty

static size length_of(const struct block *it) { return it->length & ~USED; }
static struct block *behind(struct block *it) { return (struct block *)((unsigned char *)it + length_of(it)); }
static struct block *in_front(struct block *it) { return (struct block *)((unsigned char *)it - it->before); }

// Four bins for each power of two: all blocks of a bin above that of a length are longer than it.
static int bin_of(size length) {
  int power = 63 - __builtin_clzl(length);
  return power * 4 + (int)(length >> (power - 2) & 3);
}

static void put_into_bin(struct block *it) {
  int bin = bin_of(it->length);
  it->last = 0;
  it->next = bins[bin];
  if (it->next) it->next->last = it;
  bins[bin] = it;
  filled[bin / 64] |= (size)1 << bin % 64;
}

static void take_from_bin(struct block *it) {
  int bin = bin_of(it->length);
  if (it->next) it->next->last = it->last;
  if (it->last) it->last->next = it->next;
  else bins[bin] = it->next;
  if (!bins[bin]) filled[bin / 64] &= ~((size)1 << bin % 64);
}

static struct block *first_above(int bin) {
  for (int word = ++bin / 64; word < BINS / 64; word++, bin = word * 64) {
    size left = filled[word] >> bin % 64;
    if (left) return bins[bin + __builtin_ctzl(left)];
  }
  return 0;
}

// A free block of at least this length, still in its bin.
static struct block *find(size length) {
  int bin = bin_of(length), tries = 0;
  for (struct block *it = bins[bin]; it && tries < TRIES; it = it->next, tries++)
    if (it->length >= length) return it;
  return first_above(bin);
}

// Frees a block that is in no bin, joined with the free ones beside it.
static void release(struct block *it) {
  struct block *other = behind(it);
  it->length = length_of(it);
  if (!(other->length & USED)) {
    take_from_bin(other);
    it->length += other->length;
  }
  if (it->before && !(in_front(it)->length & USED)) {
    other = in_front(it);
    take_from_bin(other);
    other->length += it->length;
    it = other;
  }
  behind(it)->before = it->length;
  put_into_bin(it);
}

// Keeps so many bytes of a block in use, and frees the rest if a block fits there.
static void shorten(struct block *it, size length) {
  size rest = length_of(it) - length;
  if (rest < LEAST) return;
  it->length = length | USED;
  struct block *other = behind(it);
  other->before = length;
  other->length = rest | USED;
  behind(other)->before = rest;
  release(other);
}

// Asks the engine for memory: for this length and some more, or for just this if so much can't be had.
static int make_room(size length) {
  size more = length + HEAD < 1048576 ? 1048576 : length + HEAD + length / 8;
  size from = end ? (size)end : ((memory_begin() + 15) & ~(size)15);
  if (memory_end() < from + HEAD + length + HEAD && !grow_memory(more) && !grow_memory(length + 2 * HEAD)) return 0;
  struct block *it = (struct block *)from;
  if (!end) it->before = 0;
  it->length = (((memory_end() & ~(size)15) - from - HEAD)) | USED;
  end = behind(it);
  end->before = length_of(it);
  end->length = HEAD | USED;
  release(it);
  return 1;
}

static size length_for(size bytes) {
  size length = (bytes + HEAD + 15) & ~(size)15;
  return length < LEAST ? LEAST : length;
}

static void *take(size bytes) {
  if (bytes > MOST) return 0;
  size length = length_for(bytes);
  struct block *it = find(length);
  if (!it && make_room(length)) it = find(length);
  if (!it) return 0;
  take_from_bin(it);
  it->length |= USED;
  shorten(it, length);
  return (unsigned char *)it + HEAD;
}

static struct block *block_at(void *at) { return (struct block *)((unsigned char *)at - HEAD); }

// Whether the block could be given this length where it lies.
static int is_resized(struct block *it, size length) {
  struct block *other = behind(it);
  if (length_of(it) < length && !(other->length & USED) && length_of(it) + other->length >= length) {
    take_from_bin(other);
    it->length = (length_of(it) + other->length) | USED;
    behind(it)->before = length_of(it);
  }
  if (length_of(it) < length) return 0;
  shorten(it, length);
  return 1;
}

struct answer { size is_given; void *at; };

struct answer rattle_alloc(size bytes, size or_else) {
  void *at = take(bytes ? bytes : or_else);
  return (struct answer){at != 0, at};
}

void rattle_dealloc(void *at) {
  if (at) release(block_at(at));
}

struct answer rattle_realloc(void *at, size before, size bytes, size or_else) {
  (void)before;
  bytes = bytes ? bytes : or_else;
  if (bytes > MOST) return (struct answer){0, 0};
  if (is_resized(block_at(at), length_for(bytes))) return (struct answer){1, at};
  void *to = take(bytes);
  if (!to) return (struct answer){0, 0};
  size had = length_of(block_at(at)) - HEAD;
  __builtin_memcpy(to, at, had < bytes ? had : bytes);
  release(block_at(at));
  return (struct answer){1, to};
}
