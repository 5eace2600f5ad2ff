/* One call of the library on standard input: ./entered_calls execute|explain|json|graph < INPUT (check/entered.py
 * runs it). */
#include <stdio.h>
#include <string.h>

#include "witgraph.h"

static uint8_t input[1 << 24], output[1 << 24];

/* The graph that a document makes of an empty one that stays, or its fault. */
static uint32_t on_a_graph(const uint8_t *document, size_t length, uint8_t *text, size_t capacity, size_t *needed) {
  witgraph_graph graph = {0};
  uint32_t status = witgraph_open(&graph);
  if (!status) status = witgraph_apply(&graph, document, length, needed);
  for (int i = 0; i < 2; i++)
    if (!status) status = witgraph_write_new(&graph, needed);
  if (!status) status = witgraph_write(&graph, needed);
  if (status <= WITGRAPH_NOT_UNDERSTOOD) witgraph_reply(&graph, text, capacity, needed);
  witgraph_close(&graph);
  return status;
}

int main(int count, char **words) {
  size_t needed = 0, length = fread(input, 1, sizeof input, stdin);
  if (count != 2) return 2;
  uint32_t (*call)(const uint8_t *, size_t, uint8_t *, size_t, size_t *) = witgraph_execute;
  if (!strcmp(words[1], "explain")) call = witgraph_explain;
  if (!strcmp(words[1], "json")) call = witgraph_json;
  if (!strcmp(words[1], "graph")) call = on_a_graph;
  uint32_t status = call(input, length, output, sizeof output, &needed);
  fwrite(output, 1, needed, stdout);
  return status > WITGRAPH_NOT_UNDERSTOOD;
}
