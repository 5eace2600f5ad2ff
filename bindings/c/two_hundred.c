/* Links 200 packages one by one on a graph that stays, and prints of each what two_hundred.py does: ./two_hundred
 *
 * Each has an interface `types`, whose type `t` is that of the package before, and a world that imports it. */
#include <stdio.h>
#include <stdlib.h>
#include <string.h>

#include "witgraph.h"

enum { PACKAGES = 200, ROOM = 2048 };

/* A document that pushes a package. What is of another package stands first in each list, and so under the id 0. */
static int write_push(char *document, int number) {
  char foreign[64] = "", kind[8] = "\"u32\"";
  const char *span = number ? "null" : "", *interface = "", *type = "";
  int own = number > 0;
  if (number) {
    interface = "{\"name\":\"types\",\"types\":{\"t\":0},\"functions\":{}},";
    type = "{\"name\":\"t\",\"kind\":\"unknown\",\"owner\":{\"interface\":0}},";
    snprintf(foreign, sizeof foreign, "\"chain:p%d\":{\"types\":[{\"interface\":0},[null]]}", number - 1);
    snprintf(kind, sizeof kind, "0");
  }
  return snprintf(document, ROOM,
      "{\"commands\":[{\"push-groups\":{\"deps\":[],\"main\":{\"nested\":[],\"sources\":[],\"main\":{"
      "\"name\":\"chain:p%d\","
      "\"worlds\":[{\"name\":\"w\",\"imports\":{\"interface-%d\":{\"interface\":{\"id\":%d}}},\"exports\":{}}],"
      "\"interfaces\":[%s{\"name\":\"types\",\"types\":{\"t\":%d},\"functions\":{\"turn\":{\"name\":\"turn\","
      "\"kind\":\"freestanding\",\"params\":[{\"name\":\"it\",\"type\":%d}],\"result\":%d}}}],"
      "\"types\":[%s{\"name\":\"t\",\"kind\":{\"type\":%s},\"owner\":{\"interface\":%d}}],"
      "\"foreign-deps\":{%s},\"foreign-dep-spans\":[%s],\"unknown-type-spans\":[%s],"
      "\"required-resources\":[]}}}}]}",
      number, own, own, interface, own, own, own, type, kind, own, foreign, span, span);
}

/* Prints what is new: the function of the package's interface, its types by their names there, and how many interfaces the
 * world imports. What the library writes has no space, and members in one order, so `sscanf` reads this much of it. */
static int print_new(const char *news) {
  char name[64], interface[64], type[64], function[64], param[64];
  const char *own = strstr(news, "\"interfaces\":[{"), *package = strstr(news, "\"packages\":[{");
  int imports = 0, id, it, result;
  if (!own || !package || sscanf(package, "\"packages\":[{\"name\":\"%63[^\"]", name) != 1 ||
      sscanf(own, "\"interfaces\":[{\"name\":\"%63[^\"]\",\"types\":{\"%63[^\"]\":%d},\"functions\":{\"%63[^\"]\":{\"name\":"
          "\"%*[^\"]\",\"kind\":\"freestanding\",\"params\":[{\"name\":\"%63[^\"]\",\"type\":%d}],\"result\":%d",
          interface, type, &id, function, param, &it, &result) != 7 || it != id || result != id) return 1;
  for (const char *at = news; (at = strstr(at, "{\"interface\":")) && at < own; at++) imports++;
  printf("%s/%s %s: func(%s: %s) -> %s; w imports %d\n", name, interface, function, param, type, type, imports);
  return 0;
}

static int fails(const char *what) {
  fprintf(stderr, "two_hundred: %s\n", what);
  return 1;
}

int main(void) {
  witgraph_graph graph = {0};
  char document[ROOM];
  size_t needed;
  if (witgraph_open(&graph)) return fails("there is no memory");
  for (int number = 0; number < PACKAGES; number++) {
    int length = write_push(document, number);
    if (witgraph_apply(&graph, (const uint8_t *)document, (size_t)length, &needed)) return fails("not carried out");
    if (witgraph_write_new(&graph, &needed)) return fails("there is no memory");
    char *news = calloc(needed + 1, 1);
    if (!news || witgraph_reply(&graph, (uint8_t *)news, needed, &needed)) return fails("there is no memory");
    if (print_new(news)) return fails(news);
    free(news);
  }
  witgraph_close(&graph);
  return 0;
}
