/*
 * Mifdagus for C and C++: the jobs of the program `replay`, each from bytes to bytes, in the caller's process.
 *
 * Each call runs in the calling thread, which needs 1 MB of stack, keeps nothing for a later call, and touches no memory but what it is
 * given and what it takes from malloc and gives back. Calls in several threads don't disturb one another; a signal handler makes none.
 * Scripts and replies are as docs/SCRIPT.md and docs/TRACE.md have them; a text is any bytes, without a byte 0 at its end.
 *
 *     char reply[65536];
 *     size_t needed;
 *     mifdagus_status status = mifdagus_replay(script, size, reply, sizeof reply, &needed);
 *     if (mifdagus_is_whole(status)) fwrite(reply, 1, needed, stdout);
 *
 * If a reply is longer than the buffer, the status is MIFDAGUS_TOO_LONG, the buffer is unchanged, and `needed` says how many bytes it
 * takes: call again with as many. With MIFDAGUS_NO_MEMORY and MIFDAGUS_USAGE the buffer is unchanged and `needed` is 0.
 *
 * A null pointer stands for no bytes if its size is 0; with another size, or for `needed`, the status is MIFDAGUS_USAGE.
 * The buffer of the reply must not overlap the script or `needed`.
 */
#ifndef MIFDAGUS_H
#define MIFDAGUS_H

#include <stddef.h>
#include <stdint.h>
#include <string.h>

#ifdef __cplusplus
extern "C" {
#endif

typedef enum mifdagus_status {
  MIFDAGUS_DONE = 0,      /* the reply is whole */
  MIFDAGUS_SYNTAX = 1,    /* the text isn't a script: the reply is the line `syntax LINE COLUMN`; of several pages, one isn't a script */
  MIFDAGUS_LIMIT = 2,     /* a limit was met: the reply goes up to the line that says which, and is whole */
  MIFDAGUS_NO_MEMORY = 3, /* malloc had too little memory */
  MIFDAGUS_TOO_LONG = 5,  /* the reply is longer than the buffer */
  MIFDAGUS_USAGE = 6,     /* a number or a length isn't one that the call takes, or a pointer is null */
  MIFDAGUS_DIFFERS = 7    /* the recorded trace isn't the script's: the reply says where they first differ */
} mifdagus_status;

/*
 * What the library exports; crates/replay_c has the contracts. These take no null pointer, also not for a size of 0.
 */
uint8_t mifdagus_raw_replay(const uint8_t *script, size_t script_size, uint8_t *reply, size_t reply_size, size_t *needed);
uint8_t mifdagus_raw_check(const uint8_t *script, size_t script_size, uint8_t *reply, size_t reply_size, size_t *needed);
uint8_t mifdagus_raw_lint(const uint8_t *script, size_t script_size, uint8_t *reply, size_t reply_size, size_t *needed);
uint8_t mifdagus_raw_summary(const uint8_t *script, size_t script_size, uint8_t *reply, size_t reply_size, size_t *needed);
uint8_t mifdagus_raw_print(const uint8_t *script, size_t script_size, uint8_t *reply, size_t reply_size, size_t *needed);
uint8_t mifdagus_raw_inspect(uint64_t tick, const uint8_t *script, size_t script_size, uint8_t *reply, size_t reply_size, size_t *needed);
uint8_t mifdagus_raw_hit(uint64_t tick, const uint8_t *x, size_t x_size, const uint8_t *y, size_t y_size, const uint8_t *script, size_t script_size,
                         uint8_t *reply, size_t reply_size, size_t *needed);
uint8_t mifdagus_raw_judge(const uint8_t *recording, size_t recording_size, uint8_t *reply, size_t reply_size, size_t *needed);
uint8_t mifdagus_raw_pages(const uint8_t *stream, size_t stream_size, uint8_t *reply, size_t reply_size, size_t *needed);
uint8_t mifdagus_raw_generate(uint64_t number, uint8_t *reply, size_t reply_size, size_t *needed);
uint8_t mifdagus_raw_generate_run(uint64_t number, uint8_t *reply, size_t reply_size, size_t *needed);

/* Whether the reply was put into the buffer, whole. */
static inline int mifdagus_is_whole(mifdagus_status status) {
  return status == MIFDAGUS_DONE || status == MIFDAGUS_SYNTAX || status == MIFDAGUS_LIMIT || status == MIFDAGUS_DIFFERS;
}

/* What a status means, in a sentence. */
static inline const char *mifdagus_sentence(mifdagus_status status) {
  switch (status) {
    case MIFDAGUS_DONE: return "the reply is whole";
    case MIFDAGUS_SYNTAX: return "the text isn't a script: the reply has the line and the column from which on it isn't";
    case MIFDAGUS_LIMIT: return "a limit was met: the last line of the reply says which, and where";
    case MIFDAGUS_NO_MEMORY: return "out of memory: give a shorter script, or free what else takes memory";
    case MIFDAGUS_TOO_LONG: return "the reply is longer than the buffer: call again with as many bytes as are needed";
    case MIFDAGUS_USAGE: return "a tick is from 1 to 1000000, another number from 0; a length is as in 5px; no pointer is null but with size 0";
    case MIFDAGUS_DIFFERS: return "the recorded trace isn't the script's: the reply says where and how they first differ";
  }
  return "no status of this library";
}

static inline int mifdagus_is_there(const void *at, size_t size) { return at != NULL || size == 0; }

static inline const uint8_t *mifdagus_given(const void *at) {
  static const uint8_t none = 0;
  return at ? (const uint8_t *)at : &none;
}

static inline mifdagus_status mifdagus_refused(size_t *needed) {
  if (needed) *needed = 0;
  return MIFDAGUS_USAGE;
}

/* Where a reply of no bytes goes. */
static inline uint8_t *mifdagus_room(void *reply, uint8_t *none) { return reply ? (uint8_t *)reply : none; }

/* The script's trace. */
static inline mifdagus_status mifdagus_replay(const void *script, size_t script_size, void *reply, size_t reply_size, size_t *needed) {
  uint8_t none = 0;
  if (!mifdagus_is_there(script, script_size) || !mifdagus_is_there(reply, reply_size) || !needed) return mifdagus_refused(needed);
  return (mifdagus_status)mifdagus_raw_replay(mifdagus_given(script), script_size, mifdagus_room(reply, &none), reply_size, needed);
}

/* `ok` and the number of the script's commands. */
static inline mifdagus_status mifdagus_check(const void *script, size_t script_size, void *reply, size_t reply_size, size_t *needed) {
  uint8_t none = 0;
  if (!mifdagus_is_there(script, script_size) || !mifdagus_is_there(reply, reply_size) || !needed) return mifdagus_refused(needed);
  return (mifdagus_status)mifdagus_raw_check(mifdagus_given(script), script_size, mifdagus_room(reply, &none), reply_size, needed);
}

/* Whether the script's resize loops always go deeper, and whether none ends with the error. */
static inline mifdagus_status mifdagus_lint(const void *script, size_t script_size, void *reply, size_t reply_size, size_t *needed) {
  uint8_t none = 0;
  if (!mifdagus_is_there(script, script_size) || !mifdagus_is_there(reply, reply_size) || !needed) return mifdagus_refused(needed);
  return (mifdagus_status)mifdagus_raw_lint(mifdagus_given(script), script_size, mifdagus_room(reply, &none), reply_size, needed);
}

/* How many lines of each kind the script's trace has. */
static inline mifdagus_status mifdagus_summary(const void *script, size_t script_size, void *reply, size_t reply_size, size_t *needed) {
  uint8_t none = 0;
  if (!mifdagus_is_there(script, script_size) || !mifdagus_is_there(reply, reply_size) || !needed) return mifdagus_refused(needed);
  return (mifdagus_status)mifdagus_raw_summary(mifdagus_given(script), script_size, mifdagus_room(reply, &none), reply_size, needed);
}

/* The script in its one printed form. */
static inline mifdagus_status mifdagus_print(const void *script, size_t script_size, void *reply, size_t reply_size, size_t *needed) {
  uint8_t none = 0;
  if (!mifdagus_is_there(script, script_size) || !mifdagus_is_there(reply, reply_size) || !needed) return mifdagus_refused(needed);
  return (mifdagus_status)mifdagus_raw_print(mifdagus_given(script), script_size, mifdagus_room(reply, &none), reply_size, needed);
}

/* Each box at the end of the script's tick of this number, from 1 to 1000000. */
static inline mifdagus_status mifdagus_inspect(uint64_t tick, const void *script, size_t script_size,
                                               void *reply, size_t reply_size, size_t *needed) {
  uint8_t none = 0;
  if (!mifdagus_is_there(script, script_size) || !mifdagus_is_there(reply, reply_size) || !needed) return mifdagus_refused(needed);
  return (mifdagus_status)mifdagus_raw_inspect(tick, mifdagus_given(script), script_size, mifdagus_room(reply, &none), reply_size, needed);
}

/* The elements that a point hits at the end of that tick, topmost first; x and y are lengths as in "5px" or "-0.5px". */
static inline mifdagus_status mifdagus_hit(uint64_t tick, const char *x, const char *y, const void *script, size_t script_size,
                                           void *reply, size_t reply_size, size_t *needed) {
  uint8_t none = 0;
  if (!x || !y || !mifdagus_is_there(script, script_size) || !mifdagus_is_there(reply, reply_size) || !needed) return mifdagus_refused(needed);
  return (mifdagus_status)mifdagus_raw_hit(tick, (const uint8_t *)x, strlen(x), (const uint8_t *)y, strlen(y), mifdagus_given(script), script_size,
                                           mifdagus_room(reply, &none), reply_size, needed);
}

/* Whether the trace that is recorded after the script's line `trace` is the script's. */
static inline mifdagus_status mifdagus_judge(const void *recording, size_t recording_size, void *reply, size_t reply_size, size_t *needed) {
  uint8_t none = 0;
  if (!mifdagus_is_there(recording, recording_size) || !mifdagus_is_there(reply, reply_size) || !needed) return mifdagus_refused(needed);
  return (mifdagus_status)mifdagus_raw_judge(mifdagus_given(recording), recording_size, mifdagus_room(reply, &none), reply_size, needed);
}

/* The traces of several pages; a line `page NAME` says whose script the next lines belong to. */
static inline mifdagus_status mifdagus_pages(const void *stream, size_t stream_size, void *reply, size_t reply_size, size_t *needed) {
  uint8_t none = 0;
  if (!mifdagus_is_there(stream, stream_size) || !mifdagus_is_there(reply, reply_size) || !needed) return mifdagus_refused(needed);
  return (mifdagus_status)mifdagus_raw_pages(mifdagus_given(stream), stream_size, mifdagus_room(reply, &none), reply_size, needed);
}

/* The script that is generated from this number, from 0 to 1000000. */
static inline mifdagus_status mifdagus_generate(uint64_t number, void *reply, size_t reply_size, size_t *needed) {
  uint8_t none = 0;
  if (!mifdagus_is_there(reply, reply_size) || !needed) return mifdagus_refused(needed);
  return (mifdagus_status)mifdagus_raw_generate(number, mifdagus_room(reply, &none), reply_size, needed);
}

/* The summary of that script's trace. */
static inline mifdagus_status mifdagus_generate_run(uint64_t number, void *reply, size_t reply_size, size_t *needed) {
  uint8_t none = 0;
  if (!mifdagus_is_there(reply, reply_size) || !needed) return mifdagus_refused(needed);
  return (mifdagus_status)mifdagus_raw_generate_run(number, mifdagus_room(reply, &none), reply_size, needed);
}

#ifdef __cplusplus
}
#endif

#endif
