/* Makes random calls of one session without a text, and the same as lines of another, for tests: typed CALLS SEED. Each reply is
 * written as a line, and compared with what the other session answers. Prints how many of the calls were refused, and how many
 * items came. */
#include <stdio.h>
#include <stdlib.h>
#include <string.h>

#include "fezdrok.h"

enum { ROOM = 1 << 16 };

static unsigned long state;

/* A random number below a bound. */
static uint32_t below(uint32_t bound) {
    state = state * 6364136223846793005u + 1442695040888963407u;
    return (uint32_t)(state >> 33) % bound;
}

/* Writes the items of a reply, each by a form of three words, and what is told of a side in place of the last. */
static char *items(char *at, const fezdrok_reply *reply, const char *form, const char *const sides[2]) {
    for (size_t i = 0; i < reply->length; i++) {
        fezdrok_item item = reply->items[i];
        at += sprintf(at, form, i ? "," : "", item.id, item.at, sides[item.side]);
    }
    return at;
}

/* Writes a refusal as a line tells it. */
static void write_refusal(char *at, const fezdrok_reply *reply, uint32_t entries) {
    static const char *const names[] = {"", "NoVertex", "SameEnds", "NoPosition", "NoEdge", "BadKind", "Cut", "Full", "Memory", "NoRoute"};
    if (reply->refusal == 70)
        sprintf(at, "{\"fault\":[70,\"NothingToUndo\",%u]}", entries);
    else if (reply->refusal == 6)
        sprintf(at, "{\"refused\":[6,\"Cut\",%u]}", reply->is.refused.segment);
    else
        sprintf(at, "{\"refused\":[%u,\"%s\"]}", reply->refusal, names[reply->refusal]);
}

/* Writes the crossed darts of an insertion, or of a route, which has no edge. */
static void write_route(char *at, const fezdrok_reply *reply, int is_made) {
    static const char *const ways[] = {"forward", "back"};
    at = items(at + sprintf(at, "{\"crossed\":["), reply, "%s[%u,%u,\"%s\"]", ways);
    at += sprintf(at, "],");
    if (is_made)
        at += sprintf(at, "\"edge\":%u,", reply->is.inserted.edge);
    sprintf(at, "\"end\":%u,\"price\":%lu,\"start\":%u}", reply->is.inserted.end, (unsigned long)reply->price, reply->is.inserted.start);
}

/* Writes what is told of an edge. */
static void write_edge(char *at, const fezdrok_reply *reply, uint32_t edge) {
    static const char *const signs[] = {"ltr", "rtl"};
    at += sprintf(at, "{\"a\":%u,\"b\":%u,\"crossings\":[", reply->is.edge.a, reply->is.edge.b);
    at = items(at, reply, "%s[%u,%u,\"%s\"]", signs);
    at += sprintf(at, "],\"id\":%u,\"kind\":%u,\"price\":", edge, reply->is.edge.kind);
    sprintf(at, reply->price ? "%lu}" : "null}", (unsigned long)reply->price);
}

/* Writes what is told of a vertex. */
static void write_vertex(char *at, const fezdrok_reply *reply) {
    static const char *const ends[] = {"a", "b"};
    at += sprintf(at, "{\"edges\":[");
    for (size_t i = 0; i < reply->length; i++)
        at += sprintf(at, "%s%u", i ? "," : "", reply->items[i].id);
    at += sprintf(at, "],\"ends\":[");
    for (size_t i = 0; i < reply->length; i++)
        at += sprintf(at, "%s\"%s\"", i ? "," : "", ends[reply->items[i].side]);
    sprintf(at, "]}");
}

/* A call with two words: its line, its reply and the line that tells it, and its status. */
struct made {
    char line[128], told[ROOM];
    fezdrok_reply reply;
    uint8_t status;
};

/* Whether a call was carried out; where it was refused, its line is written. */
static int is_done(struct made *made, uint32_t entries) {
    if (!made->status && made->reply.refusal)
        write_refusal(made->told, &made->reply, entries);
    return !made->status && !made->reply.refusal;
}

/* The three commands, of which the last is an insertion. */
static void command(fezdrok_session *session, uint32_t which, uint32_t a, uint32_t b, uint32_t kind, struct made *made) {
    fezdrok_reply *reply = &made->reply;
    if (which == 0) {
        sprintf(made->line, "[\"grow\",%u,%u,%u]", a, b % 3, kind);
        made->status = fezdrok_grow(session, 0, a, b % 3, kind, reply);
        if (is_done(made, 0))
            sprintf(made->told, "{\"edge\":%u,\"vertex\":%u}", reply->is.grown.edge, reply->is.grown.vertex);
    } else if (which == 1) {
        sprintf(made->line, "[\"delete\",%u]", a * 7 + b);
        made->status = fezdrok_delete(session, 0, a * 7 + b, reply);
        if (is_done(made, 0))
            sprintf(made->told, "{\"deleted\":%u}", reply->is.deleted.edge);
    } else {
        sprintf(made->line, "[\"insert\",%u,%u,%u]", a, b, kind);
        made->status = fezdrok_insert(session, 0, a, b, kind, reply);
        if (is_done(made, 0))
            write_route(made->told, reply, 1);
    }
}

/* Takes entries back, or asks how large the picture is. */
static void undo_or_count(fezdrok_session *session, uint32_t entries, struct made *made) {
    fezdrok_reply *reply = &made->reply;
    if (entries) {
        sprintf(made->line, "[\"undo\",%u]", entries);
        made->status = fezdrok_undo(session, entries, reply);
        if (is_done(made, entries))
            sprintf(made->told, "{\"crossings\":%u,\"edges\":%u,\"undone\":%u,\"vertices\":%u}", reply->is.undone.crossings, reply->is.undone.edges, reply->is.undone.entries, reply->is.undone.vertices);
    } else {
        sprintf(made->line, "\"counts\"");
        made->status = fezdrok_counts(session, reply);
        sprintf(made->told, "{\"crossings\":%u,\"edges\":%u,\"faces\":%u,\"segments\":%u,\"vertices\":%u}", reply->is.counts.crossings, reply->is.counts.edges, reply->is.counts.faces, reply->is.counts.segments, reply->is.counts.vertices);
    }
}

/* Asks for a route, an edge or a vertex. */
static void ask(fezdrok_session *session, uint32_t which, uint32_t a, uint32_t b, struct made *made) {
    if (which == 0) {
        sprintf(made->line, "[\"route\",%u,%u]", a, b);
        made->status = fezdrok_route(session, a, b, &made->reply);
        if (is_done(made, 0))
            write_route(made->told, &made->reply, 0);
    } else if (which == 1) {
        sprintf(made->line, "[\"edge\",%u]", a * 7 + b);
        made->status = fezdrok_edge(session, a * 7 + b, &made->reply);
        if (is_done(made, 0))
            write_edge(made->told, &made->reply, a * 7 + b);
    } else {
        sprintf(made->line, "[\"vertex\",%u]", a);
        made->status = fezdrok_vertex(session, a, &made->reply);
        if (is_done(made, 0))
            write_vertex(made->told, &made->reply);
    }
}

/* Makes a random call. */
static void make(fezdrok_session *session, uint32_t i, struct made *made) {
    uint32_t which = i < 9 ? 0 : below(12), a = below(i < 9 ? i + 2 : 12), b = below(12), kind = below(4);
    if (which < 7)
        command(session, which, a, b, kind, made);
    else if (which < 9)
        undo_or_count(session, which == 7 ? a == 1 ? i + 1 : kind : 0, made);
    else
        ask(session, which - 9, a, b, made);
}

/* Compares what two sessions answer to a line. */
static int differ(fezdrok_session *session, const char *line, const char *told) {
    fezdrok_text answer;
    uint8_t status = fezdrok_call(session, line, strlen(line), &answer);
    if (!status && answer.length == strlen(told) && !memcmp(answer.at, told, answer.length))
        return 0;
    printf("%s: %s, and as a line (status %d): %.*s\n", line, told, status, (int)answer.length, answer.at);
    return 1;
}

/* Whether the reports of both are one, the first of which is copied, for it is compared in the time of a call. */
static int have_one_report(fezdrok_session *one, fezdrok_session *other) {
    fezdrok_text answer;
    char *report;
    int are_one;
    if (fezdrok_call(one, "\"report\"", 8, &answer) || !(report = calloc(answer.length + 1, 1)))
        return 0;
    memcpy(report, answer.at, answer.length);
    are_one = !differ(other, "\"report\"", report);
    free(report);
    return are_one;
}

int main(int argc, char **argv) {
    static const char settings[] = "{\"version\":2,\"prices\":[1,null,3]}";
    static struct made made;
    fezdrok_session *one, *other;
    fezdrok_text answer;
    size_t refused = 0, length = 0;
    uint32_t count = argc > 1 ? (uint32_t)atol(argv[1]) : 0;
    state = argc > 2 ? strtoul(argv[2], NULL, 10) : 1;
    if (fezdrok_open(settings, strlen(settings), &one, &answer) || fezdrok_open(settings, strlen(settings), &other, &answer))
        return 1;
    for (uint32_t i = 0; i < count; i++) {
        make(one, i, &made);
        if (made.status || differ(other, made.line, made.told))
            return 1;
        refused += made.reply.refusal != 0;
        length += made.reply.length;
    }
    if (fezdrok_grow(one, 16, 0, 0, 0, &made.reply) || made.reply.refusal != 54 || !have_one_report(one, other))
        return 1;
    printf("%zu refused, %zu items\n", refused, length);
    return fezdrok_close(one) | fezdrok_close(other);
}
