// Linked into a program that `check/entered.py` builds, whose blocks each mark a byte of their own when they are entered.
//
// The bytes lie in the file ENTERED, so they outlive the program and those that it forks. With the file REFUSED requests for
// memory are refused: one is, where a call on the way to it was on the way to none that was refused before, which the bytes
// of that file tell. A copy of the program is refused it and goes on to its end, without its output, and with marks in the
// file REFUSED_ENTERED; then the program itself is given it.
#include <fcntl.h>
#include <signal.h>
#include <stdint.h>
#include <stdlib.h>
#include <sys/mman.h>
#include <sys/wait.h>
#include <unistd.h>

void *__libc_malloc(size_t size);
void *__libc_realloc(void *block, size_t size);

enum { CALLS = 1 << 24, DEPTH = 1000, SECONDS = 20 };

static unsigned char *marks;
static size_t many;
static volatile unsigned char *calls;
static uintptr_t top;

static void *laid(const char *variable, void *at, size_t size) {
  const char *path = getenv(variable);
  int file = path ? open(path, O_RDWR) : -1;
  if (file < 0) return 0;
  void *made = mmap(at, size, PROT_READ | PROT_WRITE, MAP_SHARED | (at ? MAP_FIXED : 0), file, 0);
  close(file);
  if (made == MAP_FAILED) _exit(99);
  return made;
}

// The program calls it before its `main` with the bytes of its blocks, which fill whole pages.
void entered_begin(unsigned char *bytes, size_t size) {
  top = (uintptr_t)__builtin_frame_address(0);
  marks = bytes, many = size;
  laid("ENTERED", bytes, size);
  calls = laid("REFUSED", 0, CALLS);
}

// Whether a call that leads here is new; all are none after it.
static int is_new(void) {
  int found = 0;
  uintptr_t *frame = __builtin_frame_address(0);
  for (int depth = 0; depth < DEPTH; depth++) {
    uintptr_t *above = (uintptr_t *)frame[0];
    size_t place = (frame[1] - (uintptr_t)entered_begin) % CALLS;
    found |= !calls[place];
    calls[place] = 1;
    if (above <= frame || (uintptr_t)above > top + (1 << 16) || (uintptr_t)above % 8) break;
    frame = above;
  }
  return found;
}

// Whether this is the copy that is to be refused.
static int is_refused(void) {
  if (!calls || !is_new()) return 0;
  off_t place = lseek(0, 0, SEEK_CUR);
  pid_t copy = fork();
  if (copy == 0) {
    calls = 0;
    int nothing = open("/dev/null", O_RDWR);
    dup2(nothing, 1), dup2(nothing, 2);
    laid("REFUSED_ENTERED", marks, many);
    alarm(SECONDS);
    return 1;
  }
  if (copy > 0) waitpid(copy, 0, 0);
  if (place >= 0) lseek(0, place, SEEK_SET);
  return 0;
}

void *malloc(size_t size) { return is_refused() ? 0 : __libc_malloc(size); }

void *realloc(void *block, size_t size) { return is_refused() ? 0 : __libc_realloc(block, size); }
