/* witgraph runs scripts or JSON documents that add WIT packages to a graph, change it and ask about it. The graph is the
 * call's own, or one that stays between calls.
 *
 * SCRIPT.md describes scripts and their answers, JSON.md the documents. Both are in docs, and in share/doc/witgraph of a
 * release. With a release, compile your program with the flags that `pkg-config --cflags --libs witgraph` prints. From the
 * repository, link libwitgraph_c.a, which `rt lib` builds in crates/witgraph_c, and after it the toolchain's liblibc_c.a:
 * bindings/README.md has the commands. The library calls the malloc, realloc and free of your program.
 *
 * Only an open witgraph_graph stays between calls. A call frees all else that it allocates before it returns. Calls in
 * different threads don't disturb each other, but only one call at a time may use a witgraph_graph. No call opens a file,
 * and none reads or writes anything but its arguments and the graph that is open in them.
 */
#ifndef WITGRAPH_H
#define WITGRAPH_H

#include <stddef.h>
#include <stdint.h>

/* The version of this header, and of the library that comes with it. */
#define WITGRAPH_VERSION "0.1.0"
#define WITGRAPH_VERSION_MAJOR 0
#define WITGRAPH_VERSION_MINOR 1
#define WITGRAPH_VERSION_PATCH 0

#ifdef __cplusplus
extern "C" {
#endif

/* The status of a call. No other number is returned. */
enum {
  /* The call did what it says. It understood and ran the script or the document, and gives the answers, refusals among
   * them. */
  WITGRAPH_UNDERSTOOD = 0,
  /* The call didn't understand the script or the document, and didn't run it. For a script the output is one line, `line
   * N: not understood`; witgraph_explain writes that line with the reason. For a document it is the first fault with its
   * place: {"fault": {"path": [..], "offset": 29, "line": 1, "column": 30, "expected": "a text"}}. */
  WITGRAPH_NOT_UNDERSTOOD = 1,
  /* The output is too short: nothing is written, and *needed is the number of bytes that it needs. Call again with as
   * many. */
  WITGRAPH_OUTPUT_TOO_SMALL = 2,
  /* The input isn't UTF-8: nothing is written, and *needed is 0. */
  WITGRAPH_INPUT_NOT_UTF8 = 3,
  /* Memory ran out outside a command: nothing is written, and *needed is 0. (If memory runs out in a command, its
   * answer is `refused 28`, and the script goes on.) A graph that stays is as before. */
  WITGRAPH_NO_MEMORY = 4,
  /* No graph is open in the witgraph_graph: nothing is done or written, and *needed is 0. */
  WITGRAPH_NO_GRAPH = 5,
  /* Only witgraph_apply returns this: memory ran out outside a command after commands were carried out. The graph is
   * valid, and has what some of them did; there are no replies, and *needed is 0. */
  WITGRAPH_CUT_SHORT = 6
};

/* Runs a script on an empty graph, and writes the answers that the program witgraph writes.
 *
 * input     the bytes of the script, in UTF-8. The call only reads them. Not null, even if length is 0.
 * length    the number of bytes of the script. No byte ends it: a zero byte is a byte like any other.
 * output    where the answers go, from its first byte on. The caller initializes its bytes; those behind the answers
 *           stay as they were. No zero byte is added. Not null, even if capacity is 0.
 * capacity  the number of bytes of the output.
 * needed    gets the number of bytes of the answers, which may be 0. As many are written if the status is 0 or 1.
 *           Not null, and aligned.
 *
 * Input, output and *needed don't overlap. length and capacity are below 2^63, as for any object. All stay the caller's.
 *
 * Answers may be longer than the script. So begin with a capacity of 0 or a guess, and call again at
 * WITGRAPH_OUTPUT_TOO_SMALL. */
uint32_t witgraph_execute(const uint8_t *input, size_t length, uint8_t *output, size_t capacity, size_t *needed);

/* Runs a script on an empty graph. Writes its refusals, and the commands that name a missing world or package, each with
 * its lines:
 *
 *     refused 11 found a reference to a interface which is excluded due to its feature not being activated
 *          --> line 6 (p:q:5:1)
 *           |
 *         6 | import i
 *           | ^-------
 *           = 11 in docs/REFUSALS.md
 *
 * `line 6` counts all lines of the script, from 1. Brackets hold the package, the line from its first line on, and the
 * column. First come the lines that the refusal names, then the line of the command, for `push` only if no other line is
 * known. For exports in conflict (4) and circles (6, 22, 23) a line ` = way: a:b/i -> a:b/j -> a:b/i` shows a known way,
 * with the known lines of its steps. docs/REFUSALS.md describes each number. A missing thing looks like this:
 *
 *     no world
 *          --> line 4
 *           |
 *         4 | print p:q w
 *           | ^----------
 *
 * If the script has neither, nothing is written, and *needed is 0.
 *
 * If the script isn't understood, the output has the first bad line and why:
 *
 *     line 2: foo_bar is no kebab name
 *           |
 *         2 | interface foo_bar
 *           | ^----------------
 *
 * (Here witgraph_execute names the line of the `push`.)
 *
 * Arguments and status are as for witgraph_execute. */
uint32_t witgraph_explain(const uint8_t *input, size_t length, uint8_t *output, size_t capacity, size_t *needed);

/* Carries out the commands of a JSON document, on an empty graph or on the document's own, and writes the document that
 * the program witgraph_json writes. It has the replies and the graph, with which a later document may begin. If the
 * input isn't such a document (WITGRAPH_NOT_UNDERSTOOD), the output has the first fault.
 *
 * Arguments and status are as for witgraph_execute, with the document in place of the script. */
uint32_t witgraph_json(const uint8_t *input, size_t length, uint8_t *output, size_t capacity, size_t *needed);

/* A graph that stays between calls. The caller owns this struct and sets it to zero before the first call, as by
 *
 *     witgraph_graph graph = {0};
 *
 * which means that no graph is open. From then on only the calls below write to it. Don't copy or drop the struct
 * while a graph is open: witgraph_close frees what the graph takes. Below, `graph` is not null, and aligned.
 *
 * witgraph_apply, witgraph_write and witgraph_write_new leave a text with the graph, until the next of these calls.
 * witgraph_reply copies it. So no command is carried out twice because an output was too small. */
typedef struct witgraph_graph {
  void *session;
} witgraph_graph;

/* Opens an empty graph. If one is open in the struct, that one is closed.
 *
 * Status: WITGRAPH_UNDERSTOOD; WITGRAPH_NO_MEMORY, and then a graph that was open still is. */
uint32_t witgraph_open(witgraph_graph *graph);

/* Carries out the commands of a JSON document on the graph. The document is as for witgraph_json. If it has a graph of its
 * own under "resolve", that takes the place of the open one before the first command. So witgraph_open and the document
 * {"resolve": .., "commands": []} open a stored graph. The text is {"replies": [..]}, or the first fault of a document that
 * isn't understood.
 *
 * input, length  the document, as for witgraph_json.
 * needed         gets the number of bytes of the text, which witgraph_reply then copies. Not null, aligned, and apart from
 *                the other arguments.
 *
 * Status: WITGRAPH_UNDERSTOOD; WITGRAPH_CUT_SHORT; and, with the graph as before, WITGRAPH_NOT_UNDERSTOOD,
 * WITGRAPH_INPUT_NOT_UTF8, WITGRAPH_NO_MEMORY and WITGRAPH_NO_GRAPH. A refused command is a reply, and leaves the graph. */
uint32_t witgraph_apply(witgraph_graph *graph, const uint8_t *input, size_t length, size_t *needed);

/* Leaves the whole graph as the text: JSON that a document may have under "resolve". The graph stays as it is.
 *
 * needed  as for witgraph_apply.
 *
 * Status: WITGRAPH_UNDERSTOOD, WITGRAPH_NO_MEMORY or WITGRAPH_NO_GRAPH. */
uint32_t witgraph_write(witgraph_graph *graph, size_t *needed);

/* Leaves what is new in the graph as the text, for a caller who keeps what earlier texts of this call said. It is JSON as of
 * witgraph_write, with a member "from" in front:
 *
 *     {"from": {"worlds": 3, "interfaces": 5, "types": 9, "packages": 2, "sources": 1}, "graph": .., "details": .., ..}
 *
 * Each number says at which index a list goes on: keep what stands before it, drop the rest, and put the text's things there.
 * So you get what witgraph_write writes. The first text has all, from 0. A later one has what came since, and from 0
 *
 * - worlds and packages after an importize or exportize, even a refused one;
 * - all lists but that of files after a semver or a merge;
 * - all lists after a document with a graph of its own, and after WITGRAPH_CUT_SHORT.
 *
 * The next call doesn't repeat this text, so copy it before another call takes its place. The graph stays as it is.
 *
 * needed  as for witgraph_apply.
 *
 * Status: WITGRAPH_UNDERSTOOD; WITGRAPH_NO_MEMORY, and then the next call has it; WITGRAPH_NO_GRAPH. */
uint32_t witgraph_write_new(witgraph_graph *graph, size_t *needed);

/* Copies the text that the last of these three calls left. It is empty if none was called, or if the last call left none. It
 * may be copied again.
 *
 * output, capacity, needed  as for witgraph_execute.
 *
 * Status: WITGRAPH_UNDERSTOOD, WITGRAPH_OUTPUT_TOO_SMALL or WITGRAPH_NO_GRAPH. */
uint32_t witgraph_reply(witgraph_graph *graph, uint8_t *output, size_t capacity, size_t *needed);

/* Closes the graph, and frees what it takes. The struct then has no open graph: drop it or open it again.
 *
 * Status: WITGRAPH_UNDERSTOOD; WITGRAPH_NO_GRAPH if none was open. */
uint32_t witgraph_close(witgraph_graph *graph);

#ifdef __cplusplus
}
#endif

#endif
