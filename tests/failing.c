// Loaded in front of the C library (LD_PRELOAD), it makes chosen calls of a program fail, and tells at the program's end
// which calls there were. The scripts beside it build it where there is a C compiler.
//
// FAIL_KIND   alloc (malloc, realloc), files (open, read), out (writes to 1), err (writes to 2) or close
// FAIL_FIRST  the first call of that kind that fails, counted from 1
// FAIL_LAST   the last one
// FAIL_ERRNO  why it fails
// READ_PIECE, WRITE_PIECE  the most bytes that one call moves
// STACK       so many bytes of the stack are used at the start, so that the system has granted them
// TOLD        the file that gets the line: allocations, those before the last open, opens and reads, writes to 1, writes
//             to 2, closes, and the most memory and the most stack that were in use at once, in KiB
#define _GNU_SOURCE
#include <dlfcn.h>
#include <errno.h>
#include <fcntl.h>
#include <stdarg.h>
#include <stdio.h>
#include <stdlib.h>
#include <string.h>
#include <sys/syscall.h>
#include <unistd.h>

enum kind { ALLOC, FILES, OUT, ERR, CLOSE, KINDS };
static const char *const NAMES[KINDS] = {"alloc", "files", "out", "err", "close"};

static unsigned long count[KINDS], early, first, last = ~0UL, read_piece = ~0UL, write_piece = ~0UL;
static int failing = KINDS, why = EIO, is_begun;
static void *(*next_malloc)(size_t);
static void *(*next_realloc)(void *, size_t);

static unsigned long number(const char *name, unsigned long otherwise) {
  const char *text = getenv(name);
  return text ? strtoul(text, 0, 10) : otherwise;
}

// Writes to each page of so many bytes of the stack.
static void use_stack(unsigned long size) {
  volatile char stack[size];
  for (unsigned long left = size; left > 0; left -= left < 4096 ? left : 4096) stack[left - 1] = 0;
}

__attribute__((constructor)) static void begin(void) {
  const char *kind = getenv("FAIL_KIND");
  next_malloc = dlsym(RTLD_NEXT, "malloc");
  next_realloc = dlsym(RTLD_NEXT, "realloc");
  for (int i = 0; kind && i < KINDS; i++)
    if (!strcmp(kind, NAMES[i])) failing = i;
  first = number("FAIL_FIRST", 1);
  last = number("FAIL_LAST", ~0UL);
  why = (int)number("FAIL_ERRNO", EIO);
  read_piece = number("READ_PIECE", ~0UL);
  write_piece = number("WRITE_PIECE", ~0UL);
  use_stack(number("STACK", 1));
  is_begun = 1;
}

// Counts a call, and tells whether it fails.
static int fails(enum kind kind) {
  if (!is_begun) return 0;
  unsigned long n = ++count[kind];
  if ((int)kind != failing || n < first || n > last) return 0;
  errno = kind == ALLOC ? ENOMEM : why;
  return 1;
}

void *malloc(size_t size) {
  if (!next_malloc) next_malloc = dlsym(RTLD_NEXT, "malloc");
  return fails(ALLOC) ? 0 : next_malloc(size);
}

void *realloc(void *block, size_t size) {
  if (!next_realloc) next_realloc = dlsym(RTLD_NEXT, "realloc");
  return fails(ALLOC) ? 0 : next_realloc(block, size);
}

static int open_at(int folder, const char *path, int flags, mode_t mode) {
  early = count[ALLOC];
  return fails(FILES) ? -1 : (int)syscall(SYS_openat, folder, path, flags, mode);
}

#define OPEN(name)                              \
  int name(const char *path, int flags, ...) {  \
    va_list more;                               \
    va_start(more, flags);                      \
    mode_t mode = va_arg(more, mode_t);         \
    va_end(more);                               \
    return open_at(AT_FDCWD, path, flags, mode); \
  }
#define OPEN_AT(name)                                       \
  int name(int folder, const char *path, int flags, ...) {  \
    va_list more;                                           \
    va_start(more, flags);                                  \
    mode_t mode = va_arg(more, mode_t);                     \
    va_end(more);                                           \
    return open_at(folder, path, flags, mode);              \
  }
OPEN(open)
OPEN(open64)
OPEN_AT(openat)
OPEN_AT(openat64)

static ssize_t read_from(int from, void *into, size_t size) {
  if (fails(FILES)) return -1;
  return syscall(SYS_read, from, into, size < read_piece ? size : read_piece);
}
ssize_t read(int from, void *into, size_t size) { return read_from(from, into, size); }
ssize_t __read(int from, void *into, size_t size) { return read_from(from, into, size); }

static ssize_t write_to(int to, const void *bytes, size_t size) {
  if ((to == 1 || to == 2) && fails(to == 1 ? OUT : ERR)) return -1;
  return syscall(SYS_write, to, bytes, size < write_piece ? size : write_piece);
}
ssize_t write(int to, const void *bytes, size_t size) { return write_to(to, bytes, size); }
ssize_t __write(int to, const void *bytes, size_t size) { return write_to(to, bytes, size); }

int close(int file) { return fails(CLOSE) ? -1 : (int)syscall(SYS_close, file); }

// What the system tells of the program behind this word, in KiB.
static unsigned long said(const char *word) {
  char text[4096];
  int file = (int)syscall(SYS_openat, AT_FDCWD, "/proc/self/status", O_RDONLY, 0);
  long size = syscall(SYS_read, file, text, sizeof text - 1);
  syscall(SYS_close, file);
  text[size < 0 ? 0 : size] = 0;
  const char *line = strstr(text, word);
  return line ? strtoul(line + strlen(word), 0, 10) : 0;
}

__attribute__((destructor)) static void end(void) {
  const char *told = getenv("TOLD");
  if (!told) return;
  char line[200];
  int size = snprintf(line, sizeof line, "%lu %lu %lu %lu %lu %lu %lu %lu\n", count[ALLOC], early, count[FILES], count[OUT],
                      count[ERR], count[CLOSE], said("VmHWM:"), said("VmStk:"));
  int file = (int)syscall(SYS_openat, AT_FDCWD, told, O_WRONLY | O_CREAT | O_TRUNC, 0600);
  syscall(SYS_write, file, line, (size_t)size);
  syscall(SYS_close, file);
}
