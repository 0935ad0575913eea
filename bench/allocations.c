/*
 * What a program of one thread asks of malloc(3), told on standard error when it ends. It is loaded
 * before the C library, which has to be GNU's:
 *
 *   cc -O2 -shared -fPIC -o allocations.so allocations.c
 *   LD_PRELOAD=./allocations.so PROGRAM ..
 *
 * It prints `N allocations N resizings N blocks N octets`: how often a block was asked for, how
 * often one was to have another size, and the most blocks and the most octets that were held at
 * once. The octets are those that a block has room for, without what the allocator keeps of it.
 */
#include <errno.h>
#include <malloc.h>
#include <stddef.h>
#include <stdio.h>
#include <unistd.h>

/* The C library's own functions, under its own names for them. */
extern void *__libc_malloc(size_t size);
extern void *__libc_calloc(size_t count, size_t size);
extern void *__libc_realloc(void *block, size_t size);
extern void *__libc_memalign(size_t alignment, size_t size);
extern void __libc_free(void *block);

static long allocations, resizings, blocks, most_blocks;
static size_t octets, most_octets;

/* A block was handed out. */
static void *out(void *block) {
  if (block == NULL) return NULL;
  blocks++;
  octets += malloc_usable_size(block);
  if (blocks > most_blocks) most_blocks = blocks;
  if (octets > most_octets) most_octets = octets;
  return block;
}

void *malloc(size_t size) {
  allocations++;
  return out(__libc_malloc(size));
}

void *calloc(size_t count, size_t size) {
  allocations++;
  return out(__libc_calloc(count, size));
}

void *aligned_alloc(size_t alignment, size_t size) {
  allocations++;
  return out(__libc_memalign(alignment, size));
}

int posix_memalign(void **block, size_t alignment, size_t size) {
  allocations++;
  void *made = out(__libc_memalign(alignment, size));
  if (made == NULL) return ENOMEM;
  *block = made;
  return 0;
}

void *realloc(void *block, size_t size) {
  if (block == NULL) return malloc(size);
  size_t before = malloc_usable_size(block);
  void *made = __libc_realloc(block, size);
  resizings++;
  if (made == NULL && size > 0) return NULL;
  blocks--;
  octets -= before;
  return out(made);
}

void free(void *block) {
  if (block == NULL) return;
  blocks--;
  octets -= malloc_usable_size(block);
  __libc_free(block);
}

__attribute__((destructor)) static void tell(void) {
  dprintf(STDERR_FILENO, "%ld allocations %ld resizings %ld blocks %zu octets\n", allocations,
          resizings, most_blocks, most_octets);
}
