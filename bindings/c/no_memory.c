/* Has each allocation of a run refused in turn, and looks at what the functions tell then and whether they free all:
 * ./no_memory DOCUMENT < SCRIPT
 *
 * It is linked with -Wl,--wrap=malloc,--wrap=realloc,--wrap=free, so that the library's calls come here first. */
#include <stdio.h>
#include <stdlib.h>
#include <string.h>

#include "witgraph.h"

void *__real_malloc(size_t size);
void *__real_realloc(void *block, size_t size);
void __real_free(void *block);

/* How many allocations were asked for, which of them is refused, and how many blocks are held. */
static long asked, refused, held;

void *__wrap_malloc(size_t size) {
  void *block = ++asked == refused ? NULL : __real_malloc(size);
  held += block != NULL;
  return block;
}

void *__wrap_realloc(void *block, size_t size) {
  void *moved = ++asked == refused ? NULL : __real_realloc(block, size);
  held += block == NULL && moved != NULL;
  return moved;
}

void __wrap_free(void *block) {
  held -= block != NULL;
  __real_free(block);
}

typedef uint32_t function(const uint8_t *, size_t, uint8_t *, size_t, size_t *);

static uint8_t input[1 << 20], whole[1 << 20], output[1 << 20];

static int fails(const char *what, long number) {
  fprintf(stderr, "at allocation %ld: %s\n", number, what);
  return 1;
}

/* The replies to a document on a graph that stays, the graph, and what is new of it. After a call of which no command is carried out the graph
 * is empty, as it was opened. */
static uint32_t on_a_graph(const uint8_t *document, size_t length, uint8_t *text, size_t capacity, size_t *needed) {
  static const char empty[] = "{\"graph\":{\"worlds\":[],\"interfaces\":[],\"types\":[],\"packages\":[]}";
  static uint8_t kept[1 << 20];
  witgraph_graph graph = {0};
  size_t told = *needed = 0, more = 0, news = 0;
  uint32_t status = witgraph_open(&graph);
  if (!status && !(status = witgraph_apply(&graph, document, length, &told))) {
    witgraph_reply(&graph, text, capacity, &told);
    if (!(status = witgraph_write(&graph, &more))) witgraph_reply(&graph, text + told, capacity - told, &more);
    if (!status && !(status = witgraph_write_new(&graph, &news)))
      witgraph_reply(&graph, text + told + more, capacity - told - more, &news);
    if (status) text[0] = '.';
  } else if (status == WITGRAPH_NO_MEMORY && graph.session) {
    long after = refused;
    refused = 0;
    if (told || witgraph_write(&graph, &told) || witgraph_reply(&graph, kept, sizeof kept, &told)) abort();
    if (memcmp(kept, empty, sizeof empty - 1)) abort();
    refused = after;
  }
  if (!status) *needed = told + more + news;
  witgraph_close(&graph);
  return status == WITGRAPH_CUT_SHORT ? WITGRAPH_NO_MEMORY : status;
}

/* Runs the input with another allocation refused each time, until none is; WORD is in the answers if that is told there. */
static int each(const char *name, function *run, size_t length, const char *word) {
  size_t all, needed;
  long told = 0;
  refused = 0;
  uint32_t status = run(input, length, whole, sizeof whole, &all);
  if (status > WITGRAPH_NOT_UNDERSTOOD || held) return fails("the run itself", 0);
  for (;;) {
    asked = 0;
    refused++;
    memset(output, '.', sizeof output);
    uint32_t got = run(input, length, output, sizeof output - 1, &needed);
    if (held) return fails("a block is held", refused);
    if (asked < refused) break;
    if (got == WITGRAPH_NO_MEMORY) {
      if (needed || output[0] != '.') return fails("something is written", refused);
    } else if (got != status) {
      return fails("another status", refused);
    } else if (needed != all || memcmp(output, whole, all)) {
      output[needed] = 0;
      if (!strstr((char *)output, word)) return fails("other answers, and no word of it", refused);
      told++;
    }
  }
  if (needed != all || memcmp(output, whole, all)) return fails("other answers", refused);
  printf("%s: %ld allocations; the refusal of %ld of them is an answer\n", name, refused - 1, told);
  return 0;
}

int main(int count, char **words) {
  size_t length = fread(input, 1, sizeof input, stdin);
  if (each("execute", witgraph_execute, length, "refused 28 ")) return 1;
  if (each("explain", witgraph_explain, length, "refused 28 ")) return 1;
  if (count != 2 || !freopen(words[1], "rb", stdin)) return fails("no document", 0);
  length = fread(input, 1, sizeof input, stdin);
  return each("graph", on_a_graph, length, "\"number\":28");
}
