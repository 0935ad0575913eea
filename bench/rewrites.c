/*
 * What a whole new segment asks of a file, with nothing around it: in each of COUNT rounds the file
 * is emptied, OCTETS octets are written, an fdatasync, one octet is written again at the start, and
 * an fdatasync.
 *
 *   rewrites FILE COUNT OCTETS
 *
 * It prints `COUNT rewrites N nanoseconds`, as a benchmark of bench/crates/tool_bench does.
 */
#include <fcntl.h>
#include <stdio.h>
#include <stdlib.h>
#include <time.h>
#include <unistd.h>

static void fail(const char *what) {
  perror(what);
  exit(1);
}

static void write_at(int file, const void *octets, size_t count, off_t at) {
  if (pwrite(file, octets, count, at) != (ssize_t)count) fail("pwrite");
}

static void rewrite(int file, const char *block, size_t octets) {
  if (ftruncate(file, 0) != 0) fail("ftruncate");
  write_at(file, block, octets, 0);
  if (fdatasync(file) != 0) fail("fdatasync");
  write_at(file, "\xa5", 1, 0);
  if (fdatasync(file) != 0) fail("fdatasync");
}

int main(int count, char **words) {
  if (count != 4) {
    fprintf(stderr, "rewrites FILE COUNT OCTETS\n");
    return 2;
  }
  long rounds = atol(words[2]);
  size_t octets = (size_t)atol(words[3]);
  char *block = calloc(1, octets + 1);
  int file = open(words[1], O_RDWR | O_CREAT | O_TRUNC, 0666);
  if (block == NULL || file < 0) fail(words[1]);
  struct timespec start, end;
  clock_gettime(CLOCK_MONOTONIC, &start);
  for (long round = 0; round < rounds; round++) {
    rewrite(file, block, octets);
  }
  clock_gettime(CLOCK_MONOTONIC, &end);
  printf("%ld rewrites %.0f nanoseconds\n", rounds,
         1e9 * (double)(end.tv_sec - start.tv_sec) + (double)(end.tv_nsec - start.tv_nsec));
  free(block);
  return 0;
}
