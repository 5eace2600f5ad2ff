/* Runs a script from standard input, as the program witgraph does: ./example < SCRIPT */
#include <stdio.h>
#include <stdlib.h>

#include "witgraph.h"

int main(void) {
  uint8_t *script = malloc(1), *answers = NULL;
  size_t length = 0, room = 1, capacity = 0, needed = 0;
  while (script && !feof(stdin) && !ferror(stdin)) {
    length += fread(script + length, 1, room - length, stdin);
    uint8_t *more = length == room ? realloc(script, room *= 2) : script;
    if (!more) free(script);
    script = more;
  }
  if (!script || ferror(stdin)) return fputs("the script can't be read\n", stderr), 1;
  /* Four times the input is room enough for almost all. Where it isn't, the call tells how much is needed. */
  uint32_t status = WITGRAPH_OUTPUT_TOO_SMALL;
  for (needed = 4 * length + 1; status == WITGRAPH_OUTPUT_TOO_SMALL;) {
    free(answers);
    answers = calloc(capacity = needed, 1);
    if (!answers) return fputs("there is no memory\n", stderr), 1;
    status = witgraph_execute(script, length, answers, capacity, &needed);
  }
  if (status == WITGRAPH_INPUT_NOT_UTF8) fputs("the script isn't UTF-8\n", stderr);
  if (status == WITGRAPH_NO_MEMORY) fputs("there is no memory\n", stderr);
  fwrite(answers, 1, needed, stdout);
  free(script);
  free(answers);
  return status != WITGRAPH_UNDERSTOOD;
}
