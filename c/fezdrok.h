/* SPDX-License-Identifier: MIT OR Apache-2.0 */
/* Fezdrok for programs in C: judgements of texts, and sessions with one picture each.
 *
 * All lengths are in bytes. No text has a zero byte behind it, or a line feed unless this is said. What is allocated is
 * allocated by malloc and freed by free. Each function may be called from several threads at once, but from no signal
 * handler, and from no forked child of a process with threads.
 */
#ifndef FEZDROK_H
#define FEZDROK_H

#include <stddef.h>
#include <stdint.h>

#ifdef __cplusplus
extern "C" {
#endif

/* The version of this file, of the library and of the program. */
#define FEZDROK_VERSION "0.5.0"

/* What a call comes to, its status. */
#define FEZDROK_DONE 0           /* done */
#define FEZDROK_FAULT 1          /* the input is at fault, which a text tells */
#define FEZDROK_NO_MEMORY 3      /* out of memory */
#define FEZDROK_TOO_SMALL 4      /* the output has no room for the text */
#define FEZDROK_NULL_OR_CLOSED 5 /* an argument is NULL, or the session is closed: nothing was done */
#define FEZDROK_IN_USE 6         /* another call of the session has not ended: nothing was done */

/* The version of the library that is linked, and what a status says. They lie in the library. */
const char *fezdrok_version(void);
const char *fezdrok_status_text(uint8_t status);

/* ---- Judgements: the commands `check` and `replay`, from bytes to bytes, in memory of the caller's
 *
 * Each judges an input of INPUT_LENGTH bytes and has a text to tell: its answer, or the line of a fault, as the program
 * `planar` prints them, with its line feed. `*size` is set to the length of the text. Where the output has room for it, the
 * text is put to its front, and the status is
 *
 *     FEZDROK_DONE       the input is a lawful picture, or a true report
 *     FEZDROK_FAULT      it is not: the text is the line of the first fault
 *     FEZDROK_NO_MEMORY  out of memory
 *
 * Else the output stays as it was, and the status is FEZDROK_TOO_SMALL; a call with `*size` bytes of room has the text,
 * unless this or that call is out of memory. Its text then has 17 bytes, so with less room it is FEZDROK_TOO_SMALL too, and
 * the next call may have a longer text. 128 bytes are enough for any text that is not a fault at a deep path of a large
 * input.
 *
 * Input, output and size do not overlap. Where one is NULL, nothing is done, and the status is FEZDROK_NULL_OR_CLOSED; input and
 * output may be NULL where their length is 0.
 */

/* Says how large the picture is that the input spells. */
uint8_t fezdrok_check(const uint8_t *input, size_t input_length, uint8_t *output, size_t output_length, size_t *size);

/* Carries out the history of a report again, and says how many calls it has. */
uint8_t fezdrok_replay(const uint8_t *input, size_t input_length, uint8_t *output, size_t output_length, size_t *size);

/* ---- Sessions: one picture each, asked line by line as `planar serve` is
 *
 * A session is the caller's from fezdrok_open to fezdrok_close. Any thread may call it, one at a time. What it answers lies
 * in it, and can be read until its next call begins; an answer that is to be a line of the same session is copied before.
 * The arguments of a call do not overlap, and nobody writes to a line while it is answered.
 */

typedef struct fezdrok_session fezdrok_session;

/* Where a text lies, and its length. */
typedef struct fezdrok_text {
    const char *at;
    size_t length;
} fezdrok_text;

/* Opens a session by the first line of `planar serve`, SETTINGS: a script without lists as {"version":1}, or any other line.
 *
 *     FEZDROK_DONE            *answer is what the line is answered; a line that is no opening leaves the picture to a later one
 *     FEZDROK_FAULT           it is an opening that is at fault: *answer tells the fault, as {"fault":[50,"NotJson"]}, and the
 *                             session is there, but each call of it has this status and tells this again
 *     FEZDROK_NO_MEMORY       *session is NULL
 *     FEZDROK_NULL_OR_CLOSED  an argument is NULL; nothing was done. SETTINGS may be NULL where its length is 0
 */
uint8_t fezdrok_open(const char *settings, size_t settings_length, fezdrok_session **session, fezdrok_text *answer);

/* Answers a line, which stands here without its line feed: a command, a question, an opening or an envelope of these.
 *
 *     FEZDROK_DONE            *answer is what `planar serve` answers, also where it refuses the command or tells a fault of the line
 *     FEZDROK_FAULT           the session was opened by settings at fault, and *answer tells their fault
 *     FEZDROK_NO_MEMORY       *answer is empty; all is as it was, or what the line asks for is done and only its answer is lost.
 *                             The session goes on
 *     FEZDROK_NULL_OR_CLOSED  or FEZDROK_IN_USE: nothing was done, and *answer is as it was
 *
 * That a session is closed is told only while its memory has no new use: it is a fault of the program all the same.
 */
uint8_t fezdrok_call(fezdrok_session *session, const char *line, size_t line_length, fezdrok_text *answer);

/* ---- Calls of a session without a text: the same commands and questions as lines, some faster
 *
 * Numbers of vertices, edges, positions and kinds are those of docs/FORMATS.md. Each sets *reply, and has a status as
 * fezdrok_call:
 *
 *     FEZDROK_DONE            refusal is 0 and the rest is the answer, or refusal says why nothing was done
 *     FEZDROK_NO_MEMORY       all of *reply is 0. A question, an undo changes nothing then; one of the three commands is not carried
 *                             out, or it is and only its answer is lost. The session goes on
 *     FEZDROK_NULL_OR_CLOSED  or FEZDROK_IN_USE: nothing was done, and *reply is as it was
 *
 * Items lie in the session until its next typed call or its end.
 */

/* A dart that is crossed: its edge, its segment, and 1 where it goes back, from the end b to the end a. Or a crossing along an edge:
 * its id, the other edge, and 1 where that passes from the right to the left. Or an edge at a vertex: its id, 0, and 1 where its
 * end b is there. */
typedef struct fezdrok_item {
    uint32_t id, at, side;
} fezdrok_item;

typedef struct fezdrok_reply {
    const fezdrok_item *items;
    size_t length;    /* how many items there are */
    uint64_t price;   /* of a route: the sum of the prices of what it crosses; of an edge: what it costs to cross it, 0 where nothing may */
    uint32_t refusal; /* 0, or 1 to 9 as in docs/FORMATS.md; 54 a caller above 15, 70 not so many entries, 72 no picture is open */
    union {
        struct { uint32_t vertex, edge; } grown;           /* what is new */
        struct { uint32_t edge, start, end; } inserted;    /* what is new, and the positions of the corners at its ends; items are darts */
        struct { uint32_t edge; } deleted;
        struct { uint32_t entries, vertices, edges, crossings; } undone; /* how many were taken back, and which ids come next */
        struct { uint32_t vertices, crossings, edges, segments, faces; } counts;
        struct { uint32_t a, b, kind; } edge;              /* its ends and its kind; items are crossings from a to b */
        struct { uint32_t segment; } refused;              /* of 6: the first segment at which the picture would fall apart */
    } is;
} fezdrok_reply;

/* A new vertex on a new edge, from the corner at this position of u. The caller, from 0 to 15, goes into the report. */
uint8_t fezdrok_grow(fezdrok_session *session, uint32_t caller, uint32_t u, uint32_t position, uint32_t kind, fezdrok_reply *reply);

/* A new edge from u to v along the first of the cheapest routes. */
uint8_t fezdrok_insert(fezdrok_session *session, uint32_t caller, uint32_t u, uint32_t v, uint32_t kind, fezdrok_reply *reply);

/* An edge taken out. */
uint8_t fezdrok_delete(fezdrok_session *session, uint32_t caller, uint32_t edge, fezdrok_reply *reply);

/* What an insertion of kind 0 would do now, in reply->is.inserted, whose edge is 0. */
uint8_t fezdrok_route(fezdrok_session *session, uint32_t u, uint32_t v, fezdrok_reply *reply);

/* Takes so many of the last entries of the report back, refused calls too. */
uint8_t fezdrok_undo(fezdrok_session *session, uint32_t entries, fezdrok_reply *reply);

/* How large the picture is. */
uint8_t fezdrok_counts(fezdrok_session *session, fezdrok_reply *reply);

/* What is to be known of an edge. */
uint8_t fezdrok_edge(fezdrok_session *session, uint32_t edge, fezdrok_reply *reply);

/* The edges round a vertex, clockwise from the least id, as items. */
uint8_t fezdrok_vertex(fezdrok_session *session, uint32_t vertex, fezdrok_reply *reply);

/* Closes a session, with its last answer. FEZDROK_DONE, or FEZDROK_NULL_OR_CLOSED or FEZDROK_IN_USE, where nothing was done. */
uint8_t fezdrok_close(fezdrok_session *session);

/* ---- Searches: pictures of a graph with few crossings, step by step
 *
 * A search is the caller's from fezdrok_search_open to fezdrok_search_close, as a session is.
 */

typedef struct fezdrok_search fezdrok_search;

/* Opens a search by what `planar planarize` reads: a graph, and how it is searched. `seconds` and `progress` count for nothing.
 *
 *     FEZDROK_DONE            the search has not begun, and *answer is empty
 *     FEZDROK_FAULT           *answer tells the fault, as {"fault":[80,"Loop",3]}, where the edge at place 3 is one, and the search is
 *                             there, but each call of it has this status and tells this again
 *     FEZDROK_NO_MEMORY       *search is NULL
 *     FEZDROK_NULL_OR_CLOSED  an argument is NULL; nothing was done
 */
uint8_t fezdrok_search_open(const char *graph, size_t graph_length, fezdrok_search **search, fezdrok_text *answer);

/* How much is tried. */
enum { FEZDROK_EFFORT_DEFAULT = 0, FEZDROK_EFFORT_QUICK = 1, FEZDROK_EFFORT_THOROUGH = 2 };

/* A graph in arrays, and how it is searched. What is 0 or NULL counts as in `planar planarize` where its key is missing, but for the
 * seed. */
typedef struct fezdrok_graph {
    uint32_t vertices;           /* how many there are, from 0 on */
    size_t edge_count;
    const uint32_t (*edges)[3];  /* of each edge its two ends and its kind */
    size_t price_count;
    const uint32_t *prices;      /* of the kinds from 0 on; 0 where an edge of this kind is to have no crossing */
    uint32_t effort, seed, threads;
} fezdrok_graph;

/* As fezdrok_search_open, by a graph in arrays, which are only read. */
uint8_t fezdrok_search_open_graph(const fezdrok_graph *graph, fezdrok_search **search, fezdrok_text *answer);

/* Asks a search:
 *
 *     "step"      to search for a while, some 50 milliseconds for each of its threads' seeds, one after the other
 *     "hurry"     to leave repair out in each component until there is a picture of it
 *     "end"       to end in each component as soon as there is a picture of it: some steps more
 *     "pictures"  for the pictures once it has ended, as `planar planarize` prints them, or for a fault. After it there is no graph
 *
 * The quotation marks belong to the request. The first three are answered by how far the search is:
 * {"component":1,"components":3,"crossings":1140,"ended":false,"orders":2}, with null for the crossings where there is no picture
 * yet. The statuses are those of fezdrok_call. Out of memory a step ends the search, and "pictures" tells 8.
 */
uint8_t fezdrok_search_call(fezdrok_search *search, const char *request, size_t request_length, fezdrok_text *answer);

/* Closes a search, with its last answer. */
uint8_t fezdrok_search_close(fezdrok_search *search);

#ifdef __cplusplus
}
#endif

#endif
