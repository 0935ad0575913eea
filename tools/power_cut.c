/*
 * Logs what a program does to the files of one directory, so that a power failure can be played
 * afterwards (tools/kill-loop --power). It is loaded before the C library:
 *
 *   cc -O2 -shared -fPIC -o power_cut.so power_cut.c
 *   POWER_DIRECTORY=/absolute/path POWER_LOGS=/another LD_PRELOAD=./power_cut.so PROGRAM ..
 *
 * $POWER_LOGS/NAME has, in order, each call at $POWER_DIRECTORY/NAME: `W AT LENGTH` with that many
 * octets in the next line, before they are written; `T LENGTH` before the file is cut; `S` after a
 * sync has succeeded. A record that is cut short belongs to a call that was not made. Each sync takes
 * $POWER_SYNC_MS milliseconds longer, so that a kill is likely to come before its end.
 */
#define _GNU_SOURCE
#include <fcntl.h>
#include <stdio.h>
#include <stdlib.h>
#include <string.h>
#include <sys/syscall.h>
#include <sys/uio.h>
#include <time.h>
#include <unistd.h>

/* The log of an open file, or -1 if the file is in another directory. */
static int log_of(int file) {
  const char *directory = getenv("POWER_DIRECTORY"), *logs = getenv("POWER_LOGS");
  char link[64], path[4096], name[4200];
  ssize_t length;
  size_t depth;
  if (directory == NULL || logs == NULL) return -1;
  snprintf(link, sizeof link, "/proc/self/fd/%d", file);
  length = readlink(link, path, sizeof path - 1);
  if (length < 0) return -1;
  path[length] = 0;
  depth = strlen(directory);
  if (strncmp(path, directory, depth) != 0 || path[depth] != '/' || strchr(path + depth + 1, '/') != NULL) return -1;
  snprintf(name, sizeof name, "%s/%s", logs, path + depth + 1);
  return open(name, O_WRONLY | O_APPEND | O_CREAT | O_CLOEXEC, 0644);
}

static void keep(int file, const char *head, const void *octets, size_t count) {
  int log = log_of(file);
  struct iovec parts[3] = {{(void *)head, strlen(head)}, {(void *)octets, count}, {"\n", octets == NULL ? 0 : 1}};
  if (log < 0) return;
  if (writev(log, parts, 3) < 0) abort();
  close(log);
}

ssize_t pwrite64(int file, const void *octets, size_t count, off64_t at) {
  char head[64];
  snprintf(head, sizeof head, "W %lld %zu\n", (long long)at, count);
  keep(file, head, octets, count);
  return syscall(SYS_pwrite64, file, octets, count, at);
}

ssize_t pwrite(int file, const void *octets, size_t count, off_t at) { return pwrite64(file, octets, count, at); }

int ftruncate64(int file, off64_t length) {
  char head[64];
  snprintf(head, sizeof head, "T %lld\n", (long long)length);
  keep(file, head, NULL, 0);
  return syscall(SYS_ftruncate, file, length);
}

int ftruncate(int file, off_t length) { return ftruncate64(file, length); }

static int synced(int file, long failed) {
  const char *words = getenv("POWER_SYNC_MS");
  long milliseconds = words == NULL ? 0 : atol(words);
  struct timespec left = {milliseconds / 1000, milliseconds % 1000 * 1000000};
  while (nanosleep(&left, &left) != 0) {
  }
  if (failed == 0) keep(file, "S\n", NULL, 0);
  return failed == 0 ? 0 : -1;
}

int fdatasync(int file) { return synced(file, syscall(SYS_fdatasync, file)); }

int fsync(int file) { return synced(file, syscall(SYS_fsync, file)); }
