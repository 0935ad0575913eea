/*
 * A slow disk: each fdatasync(2) of a program takes $SYNC_MS milliseconds longer, which may be a
 * fraction. It is loaded before the C library:
 *
 *   cc -O2 -shared -fPIC -o slow_disk.so slow_disk.c
 *   SYNC_MS=5 LD_PRELOAD=./slow_disk.so PROGRAM ..
 */
#include <stdlib.h>
#include <sys/syscall.h>
#include <time.h>
#include <unistd.h>

int fdatasync(int file) {
  const char *words = getenv("SYNC_MS");
  long microseconds = words == NULL ? 0 : (long)(1000 * atof(words));
  struct timespec left = {microseconds / 1000000, microseconds % 1000000 * 1000};
  long failed = syscall(SYS_fdatasync, file);
  while (nanosleep(&left, &left) != 0) {
  }
  return failed == 0 ? 0 : -1;
}
