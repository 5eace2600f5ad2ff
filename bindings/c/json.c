/* Carries out a JSON document from standard input, as the program witgraph_json does: ./json < DOCUMENT */
#include <stdio.h>
#include <stdlib.h>

#include "witgraph.h"

int main(void) {
  uint8_t *document = malloc(1), *output = NULL;
  size_t length = 0, room = 1, capacity = 0, needed = 0;
  while (document && !feof(stdin) && !ferror(stdin)) {
    length += fread(document + length, 1, room - length, stdin);
    uint8_t *more = length == room ? realloc(document, room *= 2) : document;
    if (!more) free(document);
    document = more;
  }
  if (!document || ferror(stdin)) return fputs("the document can't be read\n", stderr), 1;
  /* Four times the input is room enough for almost all. Where it isn't, the call tells how much is needed. */
  uint32_t status = WITGRAPH_OUTPUT_TOO_SMALL;
  for (needed = 4 * length + 1; status == WITGRAPH_OUTPUT_TOO_SMALL;) {
    free(output);
    output = calloc(capacity = needed, 1);
    if (!output) return fputs("there is no memory\n", stderr), 1;
    status = witgraph_json(document, length, output, capacity, &needed);
  }
  if (status == WITGRAPH_INPUT_NOT_UTF8) fputs("the document isn't UTF-8\n", stderr);
  if (status == WITGRAPH_NO_MEMORY) fputs("there is no memory\n", stderr);
  fwrite(output, 1, needed, stdout);
  free(document);
  free(output);
  return status != WITGRAPH_UNDERSTOOD;
}
