/* Replaces the C library's read and write in a program that is run with it (LD_PRELOAD).

     MOST=N          each call moves at most N bytes
     READ=N          call number N of read, counted from 1, fails with the error ERROR
     WRITE=N         call number N of write to standard output, counted from 1, fails with it
   At the end it writes to the file CALLS: "reads R writes W", the numbers of these calls. */
#define _GNU_SOURCE
#include <errno.h>
#include <fcntl.h>
#include <stdio.h>
#include <stdlib.h>
#include <sys/syscall.h>
#include <unistd.h>

static long most, failing_read, failing_write, error, reads, writes;

static long number(const char *name) {
  const char *text = getenv(name);
  return text ? atol(text) : 0;
}

__attribute__((constructor)) static void begin(void) {
  most = number("MOST");
  failing_read = number("READ");
  failing_write = number("WRITE");
  error = number("ERROR");
}

__attribute__((destructor)) static void end(void) {
  const char *name = getenv("CALLS");
  char line[64];
  int size = snprintf(line, sizeof line, "reads %ld writes %ld\n", reads, writes);
  int file = name ? open(name, O_WRONLY | O_CREAT | O_TRUNC, 0644) : -1;
  if (file >= 0 && syscall(SYS_write, file, line, size) != size) _exit(99);
}

static size_t cut(size_t size) { return most && size > (size_t)most ? (size_t)most : size; }

ssize_t read(int file, void *bytes, size_t size) {
  if (++reads == failing_read) {
    errno = (int)error;
    return -1;
  }
  return syscall(SYS_read, file, bytes, cut(size));
}

ssize_t write(int file, const void *bytes, size_t size) {
  if (file != 1) return syscall(SYS_write, file, bytes, size);
  if (++writes == failing_write) {
    errno = (int)error;
    return -1;
  }
  return syscall(SYS_write, file, bytes, cut(size));
}
