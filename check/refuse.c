// Laid over a program's allocator by LD_PRELOAD (check/sweep.py compiles it): refuses requests for memory.
//
// The program prints a line `call NAME` before a call that takes memory, `bare NAME` before one that takes none, and
// `answer ..` after either. In the call of number SWEEP_CALL the request of number SWEEP_AT is refused, both counted
// from 1, and with SWEEP_ON each one after it as well; in a bare call each one is. Without SWEEP_CALL the whole run is
// one call. Descriptor SWEEP_FD gets a line `asked refused` for each call, and at the end `asked refused live` of the
// last call or the whole run, where live is the blocks that were got and not freed.
#include <stdio.h>
#include <stdlib.h>
#include <string.h>
#include <sys/syscall.h>
#include <unistd.h>

void *__libc_malloc(size_t size);
void *__libc_realloc(void *block, size_t size);
void __libc_free(void *block);

static int has_marks, is_call, is_bare, on, told = -1;
static unsigned long call, wanted, at, calls, asked, refused;
static long live;
static char line[8]; // the head of a line of output
static size_t length;

static unsigned long number(const char *name) {
  const char *text = getenv(name);
  return text ? strtoul(text, 0, 10) : 0;
}

__attribute__((constructor)) static void begin(void) {
  has_marks = getenv("SWEEP_CALL") != 0;
  is_call = !has_marks;
  call = number("SWEEP_CALL");
  at = wanted = number("SWEEP_AT");
  on = number("SWEEP_ON");
  told = number("SWEEP_FD");
}

static int refuses(void) {
  if (told < 0 || !is_call) return 0;
  asked++;
  if (!is_bare && (!at || asked < at || (asked > at && !on))) return 0;
  refused++;
  return 1;
}

// The sizes that were asked for, by block: a table that is never full, with a block that is gone as one of size 0.
static struct { void *block; size_t size; } sizes[1 << 20];

static size_t *size_of(void *block) {
  size_t i = (size_t)block >> 4 & ((1 << 20) - 1);
  while (sizes[i].block && sizes[i].block != block) i = (i + 1) & ((1 << 20) - 1);
  sizes[i].block = block;
  return &sizes[i].size;
}

void *malloc(size_t size) {
  void *block = refuses() ? 0 : __libc_malloc(size);
  if (block) live++, *size_of(block) = size;
  return block;
}

// A request for less than the block has gives memory back; it isn't refused.
void *realloc(void *block, size_t size) {
  int is_less = block && size < *size_of(block);
  void *moved = !is_less && refuses() ? 0 : __libc_realloc(block, size);
  if (moved && !block) live++;
  if (moved && block) *size_of(block) = 0;
  if (moved) *size_of(moved) = size;
  return moved;
}

void free(void *block) {
  if (block) live--, *size_of(block) = 0;
  __libc_free(block);
}

static void tell(const char *form) {
  char text[96];
  int size = snprintf(text, sizeof text, form, asked, refused, live);
  if (syscall(SYS_write, told, text, size) != size) _exit(99);
}

__attribute__((destructor)) static void end(void) {
  is_call = 0;
  tell("%lu %lu %ld\n");
}

// What a line of the program's own output says.
static void mark(void) {
  if (!strncmp(line, "call ", 5) || !strncmp(line, "bare ", 5)) {
    asked = refused = 0;
    is_call = 1;
    is_bare = *line == 'b';
    at = !is_bare && ++calls == call ? wanted : 0;
  } else if (is_call && !strncmp(line, "answer ", 7)) {
    is_call = 0;
    tell("%lu %lu\n");
  }
}

ssize_t write(int descriptor, const void *bytes, size_t count) {
  for (size_t i = 0; has_marks && descriptor == 1 && i < count; i++) {
    char byte = ((const char *)bytes)[i];
    if (byte != '\n') {
      if (length < sizeof line - 1) line[length++] = byte;
    } else {
      line[length] = 0;
      length = 0;
      mark();
    }
  }
  return syscall(SYS_write, descriptor, bytes, count);
}
