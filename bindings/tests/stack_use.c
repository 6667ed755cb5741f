// Says how many bytes of stack each job takes for the script in standard input, in a thread whose stack is marked before. Usage: stack_use
#define _GNU_SOURCE
#include "mifdagus.h"
#include <pthread.h>
#include <stdio.h>
#include <stdlib.h>
#include <sys/mman.h>

enum { MOST = 1 << 24, STACK = 1 << 26, MARK = 0xa5, JOBS = 6 };
static char source[MOST], reply[MOST];
static size_t size, needed;

static void *run(void *job) {
  switch (*(int *)job) {
    case 0: mifdagus_replay(source, size, reply, MOST, &needed); break;
    case 1: mifdagus_lint(source, size, reply, MOST, &needed); break;
    case 2: mifdagus_summary(source, size, reply, MOST, &needed); break;
    case 3: mifdagus_inspect(1, source, size, reply, MOST, &needed); break;
    case 4: mifdagus_hit(1, "5px", "5px", source, size, reply, MOST, &needed); break;
    default: mifdagus_judge(source, size, reply, MOST, &needed);
  }
  return NULL;
}

static size_t stack_of(int job) {
  size_t left = 0;
  pthread_t thread;
  pthread_attr_t how;
  unsigned char *stack = mmap(NULL, STACK, PROT_READ | PROT_WRITE, MAP_PRIVATE | MAP_ANONYMOUS, -1, 0);
  if (stack == MAP_FAILED) exit(8);
  memset(stack, MARK, STACK);
  if (pthread_attr_init(&how) || pthread_attr_setstack(&how, stack, STACK) || pthread_create(&thread, &how, run, &job)) exit(8);
  pthread_join(thread, NULL);
  while (left < STACK && stack[left] == MARK) left++;
  munmap(stack, STACK);
  return STACK - left;
}

int main(void) {
  size_t most = 0;
  size = fread(source, 1, MOST, stdin);
  for (int job = 0; job < JOBS; job++) {
    size_t used = stack_of(job);
    if (used > most) most = used;
  }
  printf("%zu\n", most);
  return 0;
}
