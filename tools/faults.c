// Makes calls of a program fail, loaded before the C library by LD_PRELOAD. What fails stands in the environment:
//   REFUSE_AT=n            the n-th request for memory is refused, counted from 1
//   REFUSE_COUNT=k         so are the k - 1 that come behind it
//   REFUSE_ONE_IN=n        each request is refused with a chance of one in n
//   REFUSE_SEED=s          from which the chances are drawn
//   REFUSE_MOST=k          and no more than k are refused
//   REFUSE_AFTER=k         the first k requests are left out of this
//   AGAIN=k                a read of standard input, which has to be a file, gives no more than a line, and a line whose reply is
//                          `memory` is read again, up to k times
//   READ_SIZE=k            a read of standard input gives k bytes at most
//   READ_FAILS=n           the n-th read fails
//   WRITE_SIZE=k           a write to standard output takes k bytes at most
//   WRITE_ROOM=k           after k bytes no write takes any
//   WRITE_FAILS=1          and it fails, in place of taking nothing
//   REPORT=fd              at the end: how many requests there were, and how many were refused
#include <errno.h>
#include <stddef.h>
#include <stdint.h>
#include <stdio.h>
#include <stdlib.h>
#include <string.h>
#include <sys/types.h>
#include <sys/syscall.h>
#include <unistd.h>

extern void *__libc_malloc(size_t size);
extern void *__libc_realloc(void *old, size_t size);

static int ready;
static long at, count, one_in, most, after, again, read_size, read_fails, write_size, write_room, write_fails, report;
static long requests, refused, reads;
static uint64_t drawn;

static const char memory[] = "{\"error\":\"memory\"}";
// where the line begins and how far it is read; how often it was read again; how much of its reply is that of `memory`, -1 where it
// is another one
static long line_start, line_read, tries, same;

static long number(const char *name, long otherwise) {
  const char *text = getenv(name);
  return text ? atol(text) : otherwise;
}

static void begin(void) {
  if (ready) return;
  ready = 1;
  at = number("REFUSE_AT", 0);
  count = number("REFUSE_COUNT", 1);
  one_in = number("REFUSE_ONE_IN", 0);
  most = number("REFUSE_MOST", -1);
  after = number("REFUSE_AFTER", 0);
  again = number("AGAIN", 0);
  drawn = (uint64_t)number("REFUSE_SEED", 0) * 0x9e3779b97f4a7c15u + 1;
  read_size = number("READ_SIZE", 0);
  read_fails = number("READ_FAILS", 0);
  write_size = number("WRITE_SIZE", 0);
  write_room = number("WRITE_ROOM", -1);
  write_fails = number("WRITE_FAILS", 0);
  report = number("REPORT", -1);
}

static int is_refused(void) {
  begin();
  requests++;
  int no = at > 0 && requests >= at && requests < at + count;
  if (one_in > 0 && requests > after && (most < 0 || refused < most)) {
    drawn ^= drawn << 13;
    drawn ^= drawn >> 7;
    drawn ^= drawn << 17;
    no |= drawn % (uint64_t)one_in == 0;
  }
  refused += no;
  return no;
}

// The rest of a line, or a part of it.
static ssize_t read_line(void *into, size_t size) {
  ssize_t length = pread(0, into, size, line_read);
  if (length <= 0) return length;
  char *end = memchr(into, '\n', (size_t)length);
  if (end) length = end - (char *)into + 1;
  line_read += length;
  return length;
}

static void was_written(const char *text, size_t size) {
  for (size_t k = 0; k < size; k++) {
    if (text[k] != '\n') {
      same = same >= 0 && same < (long)sizeof memory - 1 && memory[same] == text[k] ? same + 1 : -1;
      continue;
    }
    if (same == (long)sizeof memory - 1 && tries < again) {
      tries++;
      line_read = line_start;
    } else {
      tries = 0;
      line_start = line_read;
    }
    same = 0;
  }
}

void *malloc(size_t size) {
  if (is_refused()) {
    errno = ENOMEM;
    return NULL;
  }
  return __libc_malloc(size);
}

void *realloc(void *old, size_t size) {
  if (is_refused()) {
    errno = ENOMEM;
    return NULL;
  }
  return __libc_realloc(old, size);
}

ssize_t read(int file, void *into, size_t size) {
  begin();
  if (file == 0) {
    reads++;
    if (reads == read_fails) {
      errno = EIO;
      return -1;
    }
    if (read_size > 0 && size > (size_t)read_size) size = (size_t)read_size;
    if (again > 0) return read_line(into, size);
  }
  return syscall(SYS_read, file, into, size);
}

ssize_t write(int file, const void *from, size_t size) {
  begin();
  if (file == 1) {
    if (write_size > 0 && size > (size_t)write_size) size = (size_t)write_size;
    if (write_room >= 0) {
      if (size > (size_t)write_room) size = (size_t)write_room;
      if (size == 0) {
        if (!write_fails) return 0;
        errno = ENOSPC;
        return -1;
      }
      write_room -= (long)size;
    }
  }
  ssize_t taken = syscall(SYS_write, file, from, size);
  if (file == 1 && again > 0 && taken > 0) was_written(from, (size_t)taken);
  return taken;
}

__attribute__((destructor)) static void end(void) {
  char text[64];
  begin();
  if (report < 0) return;
  int length = snprintf(text, sizeof text, "%ld %ld\n", requests, refused);
  if (syscall(SYS_write, (int)report, text, (size_t)length) < 0) return;
}
