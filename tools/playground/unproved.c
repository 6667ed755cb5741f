// The calls of crates/replay_c for a module that is compiled without proofs (unproved_module.py): each runs the whole program, with these
// words as its arguments and the text as its standard input, and what it writes is the reply.
typedef unsigned long size;
typedef unsigned char byte;
enum { MOST_WORDS = 5, MOST_LETTERS = 32, TOO_LONG = 5, USAGE = 6 };

extern int run_program(int count, char **words) __asm__("main");

static struct { const byte *at; size left; } text;
static struct { byte *at; size room, length; } reply;
static byte words[MOST_WORDS][MOST_LETTERS];
static size lengths[MOST_WORDS], count;
static int fault;

// ---- what the program calls ----

long read(int file, void *to, size most) {
  size bytes = text.left < most ? text.left : most;
  if (file) return -1;
  __builtin_memcpy(to, text.at, bytes);
  text.at += bytes;
  text.left -= bytes;
  return (long)bytes;
}
long write(int file, const void *from, size bytes) {
  if (file != 1) return (long)bytes;
  if (reply.length < reply.room) {
    size room = reply.room - reply.length;
    __builtin_memcpy(reply.at + reply.length, from, bytes < room ? bytes : room);
  }
  reply.length += bytes;
  return (long)bytes;
}
long rattle_arg(size place, void *to, size most) {
  if (place >= count) return -1;
  __builtin_memcpy(to, words[place], lengths[place] < most ? lengths[place] : most);
  return (long)lengths[place];
}
int rattle_errno(void) { return fault; }
void rattle_set_errno(int number) { fault = number; }
long __sysv_signal(int number, long action) { return number + action < 0; }

// ---- the calls ----

static int add(const byte *word, size length) {
  if (count == MOST_WORDS || length > MOST_LETTERS) return 0;
  __builtin_memcpy(words[count], word, length);
  lengths[count++] = length;
  return 1;
}
static void begin(const char *job) {
  count = 0;
  size letters = 0;
  while (job[letters]) letters++;
  add((const byte *)"replay", 6);
  if (letters) add((const byte *)job, letters);
}
static void add_number(size number) {
  byte digits[20];
  size from = sizeof digits;
  do digits[--from] = '0' + number % 10;
  while (number /= 10);
  add(digits + from, sizeof digits - from);
}
static byte answer(const byte *source, size length, byte *at, size room, size *needed) {
  text.at = source;
  text.left = length;
  reply.at = at;
  reply.room = room;
  reply.length = 0;
  int status = run_program(0, 0);
  *needed = reply.length;
  return reply.length > room ? TOO_LONG : (byte)status;
}

#define CALL(name) __attribute__((export_name("mifdagus_raw_" #name))) byte name
#define GIVEN const byte *source, size length, byte *at, size room, size *needed
#define JOB(name, word) \
  CALL(name)(GIVEN) { begin(word); return answer(source, length, at, room, needed); }
JOB(replay, "")
JOB(check, "--check")
JOB(lint, "--lint")
JOB(summary, "--summary")
JOB(print, "--print")
JOB(judge, "--judge")
JOB(pages, "--pages")
CALL(inspect)(size tick, GIVEN) {
  begin("--inspect");
  add_number(tick);
  return answer(source, length, at, room, needed);
}
CALL(hit)(size tick, const byte *left, size left_length, const byte *top, size top_length, GIVEN) {
  begin("--hit");
  add_number(tick);
  if (!add(left, left_length) || !add(top, top_length)) return *needed = 0, USAGE;
  return answer(source, length, at, room, needed);
}
CALL(generate)(size number, byte *at, size room, size *needed) {
  begin("--generate");
  add_number(number);
  return answer(0, 0, at, room, needed);
}
CALL(generate_run)(size number, byte *at, size room, size *needed) {
  begin("--generate-run");
  add_number(number);
  return answer(0, 0, at, room, needed);
}
