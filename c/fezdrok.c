/* SPDX-License-Identifier: MIT OR Apache-2.0 */
/* What stands between a program in C and the proved functions of crates/fezdrok_c. It is not proved: it gives a session its
 * block, and turns wrong use away before it comes to them. */
#include "fezdrok.h"

/* Of the C library. Its headers are not read, so that the bytes of this object do not depend on them. */
void *malloc(size_t size);
void free(void *block);

/* The number of a call without a text, its caller, and the words that it takes. */
struct words {
    uint32_t call, caller, a, b, c;
};

/* The proved functions. None may be given NULL, and a session goes from begin over calls, one at a time, to end. */
size_t fezdrok_size(void);
void fezdrok_begin(void *block, const char *settings, size_t settings_length, fezdrok_text *text, uint8_t *status);
uint8_t fezdrok_answer(void *block, const char *line, size_t line_length, fezdrok_text *text);
uint8_t fezdrok_typed(void *block, const struct words *words, fezdrok_reply *reply);
void fezdrok_end(void *block);

/* The proved judgements, by names of their own: what fezdrok.h declares tests for NULL before. c/build_library names them so. */
uint8_t fezdrok_check_proved(const uint8_t *input, size_t input_length, uint8_t *output, size_t output_length, size_t *size);
uint8_t fezdrok_replay_proved(const uint8_t *input, size_t input_length, uint8_t *output, size_t output_length, size_t *size);

/* A search takes the same way. */
size_t fezdrok_search_size(void);
void fezdrok_search_begin(void *block, const char *graph, size_t graph_length, fezdrok_text *text, uint8_t *status);
uint8_t fezdrok_search_answer(void *block, const char *request, size_t request_length, fezdrok_text *text);
void fezdrok_search_end(void *block);

/* The numbers of these calls. The five numbers of a reply stand in `is`, in the order of its members. */
enum { GROW, INSERT, DELETE, ROUTE, UNDO, COUNTS, EDGE, VERTEX };

enum { CLOSED = 0, OPEN = 0x6e65706f, IN_USE = 0x65737575 };

struct fezdrok_session {
    char spare[16]; /* glibc writes here when the block is freed, so `state` says for a while that it is closed */
    uint32_t state;
    uint8_t begun;     /* the status of its beginning */
    fezdrok_text told; /* what its beginning told: where that was at fault, each call tells it again */
    _Alignas(16) char block[];
};

/* Takes a session for a call, or says why it cannot be taken. */
static uint8_t take(fezdrok_session *session) {
    uint32_t found = OPEN;
    if (!session)
        return FEZDROK_NULL_OR_CLOSED;
    if (__atomic_compare_exchange_n(&session->state, &found, IN_USE, 0, __ATOMIC_SEQ_CST, __ATOMIC_SEQ_CST))
        return FEZDROK_DONE;
    return found == IN_USE ? FEZDROK_IN_USE : FEZDROK_NULL_OR_CLOSED;
}

/* Says that no call has the session any more. */
static void leave(fezdrok_session *session, uint32_t state) {
    __atomic_store_n(&session->state, state, __ATOMIC_SEQ_CST);
}

/* What is begun, called and ended in a block. */
struct kind {
    size_t (*size)(void);
    void (*begin)(void *, const char *, size_t, fezdrok_text *, uint8_t *);
    uint8_t (*answer)(void *, const char *, size_t, fezdrok_text *);
    void (*end)(void *);
};

static const struct kind SESSION = {fezdrok_size, fezdrok_begin, fezdrok_answer, fezdrok_end};
static const struct kind SEARCH = {fezdrok_search_size, fezdrok_search_begin, fezdrok_search_answer, fezdrok_search_end};

/* Makes a block and begins in it. */
static uint8_t begin_in(const struct kind *kind, const char *first, size_t length, fezdrok_session **session, fezdrok_text *answer) {
    uint8_t status;
    fezdrok_session *made;
    if ((!first && length) || !session || !answer)
        return FEZDROK_NULL_OR_CLOSED;
    *session = NULL;
    made = malloc(sizeof *made + kind->size());
    if (!made) {
        *answer = (fezdrok_text){"", 0};
        return FEZDROK_NO_MEMORY;
    }
    kind->begin(made->block, first ? first : "", length, answer, &status);
    if (status == FEZDROK_NO_MEMORY) {
        *answer = (fezdrok_text){"", 0};
        kind->end(made->block);
        free(made);
        return status;
    }
    made->begun = status;
    made->told = *answer;
    leave(made, OPEN);
    *session = made;
    return status;
}

/* Asks what lies in a block. */
static uint8_t ask(const struct kind *kind, fezdrok_session *session, const char *line, size_t length, fezdrok_text *answer) {
    uint8_t status;
    if ((!line && length) || !answer)
        return FEZDROK_NULL_OR_CLOSED;
    status = take(session);
    if (status)
        return status;
    status = session->begun;
    if (status == FEZDROK_FAULT)
        *answer = session->told;
    else
        status = kind->answer(session->block, line ? line : "", length, answer);
    leave(session, OPEN);
    return status;
}

/* Ends what lies in a block, and gives that back. */
static uint8_t end_in(const struct kind *kind, fezdrok_session *session) {
    uint8_t status = take(session);
    if (status)
        return status;
    kind->end(session->block);
    leave(session, CLOSED);
    free(session);
    return FEZDROK_DONE;
}

uint8_t fezdrok_open(const char *settings, size_t settings_length, fezdrok_session **session, fezdrok_text *answer) {
    return begin_in(&SESSION, settings, settings_length, session, answer);
}

uint8_t fezdrok_call(fezdrok_session *session, const char *line, size_t line_length, fezdrok_text *answer) {
    return ask(&SESSION, session, line, line_length, answer);
}

uint8_t fezdrok_search_open(const char *graph, size_t graph_length, fezdrok_search **search, fezdrok_text *answer) {
    return begin_in(&SEARCH, graph, graph_length, (fezdrok_session **)search, answer);
}

/* Writes a text, and returns the place behind it. */
static char *put(char *at, const char *text) {
    while (*text)
        *at++ = *text++;
    return at;
}

/* Writes a number behind a text. */
static char *put_number(char *at, const char *before, uint32_t number) {
    char digits[10];
    int count = 0;
    at = put(at, before);
    do
        digits[count++] = (char)('0' + number % 10);
    while (number /= 10);
    while (count)
        *at++ = digits[--count];
    return at;
}

/* Writes a graph as `planar planarize` reads it, and returns the place behind it. An edge takes 35 bytes at most, a price 11, all
 * else less than 200. */
static char *put_graph(char *at, const fezdrok_graph *graph) {
    static const char *const EFFORTS[] = {"\"default\"", "\"quick\"", "\"thorough\""};
    uint32_t version = 1;
    at = put(at, "{\"edges\":[");
    for (size_t i = 0; i < graph->edge_count; i++) {
        at = put_number(at, i ? ",[" : "[", graph->edges[i][0]);
        at = put_number(at, ",", graph->edges[i][1]);
        at = put(put_number(at, ",", graph->edges[i][2]), "]");
    }
    at = put(at, "],\"effort\":");
    at = graph->effort < 3 ? put(at, EFFORTS[graph->effort]) : put_number(at, "", graph->effort);
    at = put(at, ",\"prices\":[");
    for (size_t i = 0; i < graph->price_count; i++)
        if (graph->prices[i])
            at = put_number(at, i ? "," : "", graph->prices[i]);
        else
            at = put(at, i ? ",null" : "null"), version = 2;
    at = put_number(at, "],\"seed\":", graph->seed);
    at = put_number(at, ",\"threads\":", graph->threads ? graph->threads : 1);
    at = put_number(at, ",\"version\":", version);
    return put(put_number(at, ",\"vertices\":", graph->vertices), "}");
}

uint8_t fezdrok_search_open_graph(const fezdrok_graph *graph, fezdrok_search **search, fezdrok_text *answer) {
    uint8_t status;
    char *text = NULL;
    if (!graph || !search || !answer || (!graph->edges && graph->edge_count) || (!graph->prices && graph->price_count))
        return FEZDROK_NULL_OR_CLOSED;
    if (graph->edge_count < (size_t)-1 / 128 && graph->price_count < (size_t)-1 / 128)
        text = malloc(200 + 35 * graph->edge_count + 11 * graph->price_count);
    if (!text) {
        *search = NULL;
        *answer = (fezdrok_text){"", 0};
        return FEZDROK_NO_MEMORY;
    }
    status = fezdrok_search_open(text, (size_t)(put_graph(text, graph) - text), search, answer);
    free(text);
    return status;
}

uint8_t fezdrok_search_call(fezdrok_search *search, const char *request, size_t request_length, fezdrok_text *answer) {
    return ask(&SEARCH, (fezdrok_session *)search, request, request_length, answer);
}

uint8_t fezdrok_search_close(fezdrok_search *search) {
    return end_in(&SEARCH, (fezdrok_session *)search);
}

/* Makes a call without a text. */
static uint8_t make(fezdrok_session *session, struct words words, fezdrok_reply *reply) {
    uint8_t status;
    if (!reply)
        return FEZDROK_NULL_OR_CLOSED;
    status = take(session);
    if (status)
        return status;
    status = session->begun;
    if (status == FEZDROK_FAULT)
        *reply = (fezdrok_reply){0};
    else
        status = fezdrok_typed(session->block, &words, reply);
    leave(session, OPEN);
    return status;
}

uint8_t fezdrok_grow(fezdrok_session *session, uint32_t caller, uint32_t u, uint32_t position, uint32_t kind, fezdrok_reply *reply) {
    return make(session, (struct words){GROW, caller, u, position, kind}, reply);
}

uint8_t fezdrok_insert(fezdrok_session *session, uint32_t caller, uint32_t u, uint32_t v, uint32_t kind, fezdrok_reply *reply) {
    return make(session, (struct words){INSERT, caller, u, v, kind}, reply);
}

uint8_t fezdrok_delete(fezdrok_session *session, uint32_t caller, uint32_t edge, fezdrok_reply *reply) {
    return make(session, (struct words){DELETE, caller, edge, 0, 0}, reply);
}

uint8_t fezdrok_route(fezdrok_session *session, uint32_t u, uint32_t v, fezdrok_reply *reply) {
    return make(session, (struct words){ROUTE, 0, u, v, 0}, reply);
}

uint8_t fezdrok_undo(fezdrok_session *session, uint32_t entries, fezdrok_reply *reply) {
    return make(session, (struct words){UNDO, 0, entries, 0, 0}, reply);
}

uint8_t fezdrok_counts(fezdrok_session *session, fezdrok_reply *reply) {
    return make(session, (struct words){COUNTS, 0, 0, 0, 0}, reply);
}

uint8_t fezdrok_edge(fezdrok_session *session, uint32_t edge, fezdrok_reply *reply) {
    return make(session, (struct words){EDGE, 0, edge, 0, 0}, reply);
}

uint8_t fezdrok_vertex(fezdrok_session *session, uint32_t vertex, fezdrok_reply *reply) {
    return make(session, (struct words){VERTEX, 0, vertex, 0, 0}, reply);
}

uint8_t fezdrok_close(fezdrok_session *session) {
    return end_in(&SESSION, session);
}

/* Judges an input. What is NULL and has the length 0 stands for an empty place. */
static uint8_t judge(uint8_t (*proved)(const uint8_t *, size_t, uint8_t *, size_t, size_t *), const uint8_t *input, size_t input_length, uint8_t *output, size_t output_length, size_t *size) {
    uint8_t none = 0;
    if ((!input && input_length) || (!output && output_length) || !size)
        return FEZDROK_NULL_OR_CLOSED;
    return proved(input ? input : (const uint8_t *)"", input_length, output ? output : &none, output_length, size);
}

uint8_t fezdrok_check(const uint8_t *input, size_t input_length, uint8_t *output, size_t output_length, size_t *size) {
    return judge(fezdrok_check_proved, input, input_length, output, output_length, size);
}

uint8_t fezdrok_replay(const uint8_t *input, size_t input_length, uint8_t *output, size_t output_length, size_t *size) {
    return judge(fezdrok_replay_proved, input, input_length, output, output_length, size);
}

const char *fezdrok_version(void) {
    return FEZDROK_VERSION;
}

const char *fezdrok_status_text(uint8_t status) {
    switch (status) {
    case FEZDROK_DONE: return "done";
    case FEZDROK_FAULT: return "the input is at fault";
    case FEZDROK_NO_MEMORY: return "out of memory";
    case FEZDROK_TOO_SMALL: return "the output is too small";
    case FEZDROK_NULL_OR_CLOSED: return "an argument is NULL, or the session is closed";
    case FEZDROK_IN_USE: return "the session is in use";
    default: return "no status";
    }
}
