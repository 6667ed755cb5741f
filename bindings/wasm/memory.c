// The C library's functions on memory, by WebAssembly's own instructions, and room for the page's bytes.
typedef unsigned long size;
struct answer { size is_given; void *at; };
struct answer rattle_alloc(size bytes, size or_else);
void rattle_dealloc(void *at);

void *memcpy(void *to, const void *from, size bytes) { return __builtin_memcpy(to, from, bytes); }
void *memmove(void *to, const void *from, size bytes) { return __builtin_memmove(to, from, bytes); }
void *memset(void *to, int byte, size bytes) { return __builtin_memset(to, byte, bytes); }

int memcmp(const void *one, const void *other, size bytes) {
  const unsigned char *a = one, *b = other;
  for (; bytes; bytes--, a++, b++)
    if (*a != *b) return *a - *b;
  return 0;
}
int bcmp(const void *one, const void *other, size bytes) { return memcmp(one, other, bytes); }

// Room for so many bytes, or 0 if there is no more memory; and its end.
__attribute__((export_name("mifdagus_take"))) void *mifdagus_take(size bytes) { return rattle_alloc(bytes, 16).at; }
__attribute__((export_name("mifdagus_give"))) void mifdagus_give(void *at) { rattle_dealloc(at); }

// What Debian's build of compiler-rt asks for.
unsigned long __stack_chk_guard = 0x5afec0de;
__attribute__((noreturn)) void __stack_chk_fail(void) { __builtin_trap(); }
