// Counts the bytes that a program has the C library copy and blank. Preloaded (LD_PRELOAD), it stands in for memcpy,
// memmove and memset; at the program's end it writes two numbers to the file that COPIES names: the bytes copied, and
// the bytes blanked.
#include <stddef.h>
#include <stdio.h>
#include <stdlib.h>

static size_t copied, blanked;

// One byte after the other; the compiler, which would make a call of the function itself of the loop, is kept from it.
static void *forward(char *to, const char *from, size_t count) {
  for (size_t k = 0; k < count; k++) {
    to[k] = from[k];
    __asm__ volatile("" ::: "memory");
  }
  return to;
}

static void *backward(char *to, const char *from, size_t count) {
  while (count-- > 0) {
    to[count] = from[count];
    __asm__ volatile("" ::: "memory");
  }
  return to;
}

void *memcpy(void *to, const void *from, size_t count) {
  copied += count;
  return forward(to, from, count);
}

void *memmove(void *to, const void *from, size_t count) {
  copied += count;
  return (char *)to < (const char *)from ? forward(to, from, count) : backward(to, from, count);
}

void *memset(void *to, int byte, size_t count) {
  blanked += count;
  for (size_t k = 0; k < count; k++) {
    ((char *)to)[k] = (char)byte;
    __asm__ volatile("" ::: "memory");
  }
  return to;
}

__attribute__((destructor)) static void told(void) {
  // read first: opening a file may copy
  size_t copies = copied, blanks = blanked;
  const char *name = getenv("COPIES");
  FILE *file = name ? fopen(name, "w") : NULL;
  if (file) {
    fprintf(file, "%zu %zu\n", copies, blanks);
    fclose(file);
  }
}
