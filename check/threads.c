/* Calls the library from eight threads at once, or very often from one:
 *
 *     ./threads SCRIPT DOCUMENT at-once CALLS
 *     ./threads SCRIPT DOCUMENT often CALLS
 *
 * Each of eight has inputs of its own: the script with a package behind it that comes twice, so that there is a refusal to be
 * explained, and the document, which also makes a graph that stays for one call. What each call of each
 * function writes is compared with what a first call wrote, before there were threads, and a call has to free all that it
 * allocates. `often` makes so many calls in one thread, and looks that the program takes no more of the system.
 *
 * It is linked with -Wl,--wrap=malloc,--wrap=realloc,--wrap=free, so that the library's calls come here first. */
#include <pthread.h>
#include <stdio.h>
#include <stdlib.h>
#include <string.h>
#include <sys/resource.h>

#include "witgraph.h"

enum { THREADS = 8, CALLS = 4, ROOM = 1 << 20, KILOBYTES_OF_NOISE = 256 };

typedef uint32_t function(const uint8_t *, size_t, uint8_t *, size_t, size_t *);

/* A call, with what it is to write. */
typedef struct {
  function *run;
  const uint8_t *input;
  size_t length;
  uint32_t status;
  uint8_t *expected;
  size_t all;
} call;

/* What a thread does: its calls, and memory for what they write. */
typedef struct {
  pthread_t thread;
  call calls[CALLS];
  uint8_t *script, *document, *output;
  long rounds;
  int differs;
} work;

void *__real_malloc(size_t size);
void *__real_realloc(void *block, size_t size);
void __real_free(void *block);

/* How many blocks a thread holds. */
static __thread long held;

void *__wrap_malloc(size_t size) {
  void *block = __real_malloc(size);
  held += block != NULL;
  return block;
}

void *__wrap_realloc(void *block, size_t size) {
  void *moved = __real_realloc(block, size);
  held += block == NULL && moved != NULL;
  return moved;
}

void __wrap_free(void *block) {
  held -= block != NULL;
  __real_free(block);
}

static void *room(size_t size) {
  void *block = calloc(size, 1);
  if (!block) exit((fputs("threads: no memory\n", stderr), 2));
  return block;
}

static size_t read_file(const char *path, uint8_t *into) {
  FILE *file = fopen(path, "rb");
  size_t length = file ? fread(into, 1, ROOM / 2, file) : 0;
  if (!length) exit((fprintf(stderr, "threads: %s can't be read\n", path), 2));
  fclose(file);
  return length;
}

static call made(function *run, const uint8_t *input, size_t length) {
  call it = {run, input, length, 0, room(ROOM), 0};
  it.status = run(input, length, it.expected, ROOM, &it.all);
  if (it.status > WITGRAPH_NOT_UNDERSTOOD) exit((fprintf(stderr, "threads: status %u\n", (unsigned)it.status), 2));
  it.expected = realloc(it.expected, it.all + 1);
  return it;
}

/* The graph that a document makes of an empty one that stays, by a graph of this call's own. */
static uint32_t on_a_graph(const uint8_t *document, size_t length, uint8_t *text, size_t capacity, size_t *needed) {
  witgraph_graph graph = {0};
  uint32_t status = witgraph_open(&graph);
  if (!status) status = witgraph_apply(&graph, document, length, needed);
  if (!status) status = witgraph_write(&graph, needed);
  if (!status) status = witgraph_write_new(&graph, needed);
  if (!status) status = witgraph_reply(&graph, text, capacity, needed);
  return witgraph_close(&graph) ? WITGRAPH_NO_GRAPH : status;
}

static void prepare(work *it, int number, long rounds, char **files) {
  it->script = room(ROOM);
  it->document = room(ROOM);
  it->output = room(ROOM);
  size_t script = read_file(files[0], it->script), document = read_file(files[1], it->document);
  for (int i = 0; i < 2; i++)
    script += (size_t)sprintf((char *)it->script + script, "package thread:number%d\npush\n", number);
  it->calls[0] = made(witgraph_execute, it->script, script);
  it->calls[1] = made(witgraph_explain, it->script, script);
  it->calls[2] = made(witgraph_json, it->document, document);
  it->calls[3] = made(on_a_graph, it->document, document);
  it->rounds = rounds;
  it->differs = 0;
}

static void release(work *it) {
  for (int i = 0; i < CALLS; i++) free(it->calls[i].expected);
  free(it->script);
  free(it->document);
  free(it->output);
}

/* Whether a call writes what it is to write, and holds nothing. */
static int is_right(const call *it, uint8_t *output) {
  size_t needed;
  long before = held;
  uint32_t status = it->run(it->input, it->length, output, ROOM, &needed);
  if (held != before) return 0;
  return status == it->status && needed == it->all && memcmp(output, it->expected, needed) == 0;
}

static void *all_rounds(void *given) {
  work *it = given;
  for (long round = 0; round < it->rounds; round++)
    for (int i = 0; i < CALLS; i++) it->differs |= !is_right(&it->calls[i], it->output);
  return NULL;
}

static int at_once(long calls, char **files) {
  static work all[THREADS];
  int differs = 0;
  for (int i = 0; i < THREADS; i++) prepare(&all[i], i, calls / CALLS / THREADS + 1, files);
  for (int i = 0; i < THREADS; i++)
    if (pthread_create(&all[i].thread, NULL, all_rounds, &all[i])) return fputs("threads: none can be started\n", stderr), 2;
  for (int i = 0; i < THREADS; i++) {
    pthread_join(all[i].thread, NULL);
    differs |= all[i].differs;
    release(&all[i]);
  }
  if (differs) fputs("threads: a call in a thread wrote something else, or holds memory\n", stderr);
  return differs;
}

static long kilobytes(void) {
  struct rusage used;
  getrusage(RUSAGE_SELF, &used);
  return used.ru_maxrss;
}

static int often(long calls, char **files) {
  static work it;
  long first = 0;
  prepare(&it, 0, 1, files);
  for (long round = 0; CALLS * round < calls; round++) {
    all_rounds(&it);
    if (it.differs) return fprintf(stderr, "threads: round %ld wrote something else, or holds memory\n", round), 1;
    if (round == 100) first = kilobytes();
  }
  long more = first ? kilobytes() - first : 0;
  release(&it);
  if (more > KILOBYTES_OF_NOISE) return fprintf(stderr, "threads: %ld kilobytes more were taken\n", more), 1;
  return 0;
}

int main(int count, char **words) {
  if (count != 5) return fputs("threads SCRIPT DOCUMENT at-once|often CALLS\n", stderr), 2;
  long calls = strtol(words[4], NULL, 10);
  return strcmp(words[3], "often") ? at_once(calls, words + 1) : often(calls, words + 1);
}
