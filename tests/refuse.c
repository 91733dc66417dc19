/* Replaces the C library's allocator in a program that is run with it (LD_PRELOAD).

   Counts the blocks that the program allocates and frees, and lets some allocations fail:
     REFUSE=N       allocation number N, counted from 1
     REFUSE_FROM=N  that one and all later ones
   At the end it writes to the file COUNTS: "asked A refused R held H bytes B". A is the number of allocations, R of
   those that failed, H of blocks that were allocated and not freed, and B of bytes in all allocations. */
#include <fcntl.h>
#include <stddef.h>
#include <stdio.h>
#include <stdlib.h>
#include <string.h>
#include <unistd.h>

void *__libc_malloc(size_t);
void *__libc_calloc(size_t, size_t);
void *__libc_realloc(void *, size_t);
void __libc_free(void *);

static long one, from, asked, refused, held, bytes;

__attribute__((constructor)) static void begin(void) {
  const char *text = getenv("REFUSE");
  one = text ? atol(text) : 0;
  text = getenv("REFUSE_FROM");
  from = text ? atol(text) : 0;
  asked = refused = held = bytes = 0;
}

__attribute__((destructor)) static void end(void) {
  const char *name = getenv("COUNTS");
  char line[96];
  int size = snprintf(line, sizeof line, "asked %ld refused %ld held %ld bytes %ld\n", asked, refused, held, bytes);
  int file = name ? open(name, O_WRONLY | O_CREAT | O_TRUNC, 0644) : -1;
  if (file >= 0) {
    if (write(file, line, size) != size) _exit(99);
    close(file);
  }
}

static int is_refused(size_t size) {
  asked++;
  bytes += (long)size;
  if (asked == one || (from && asked >= from)) {
    refused++;
    return 1;
  }
  return 0;
}

static void *taken(void *block) {
  held += block != NULL;
  return block;
}

void *malloc(size_t size) { return is_refused(size) ? NULL : taken(__libc_malloc(size)); }

void *calloc(size_t count, size_t size) { return is_refused(count * size) ? NULL : taken(__libc_calloc(count, size)); }

void *realloc(void *block, size_t size) {
  if (is_refused(size)) return NULL;
  void *grown = __libc_realloc(block, size);
  return block ? grown : taken(grown);
}

void free(void *block) {
  held -= block != NULL;
  __libc_free(block);
}
