/* Opens a session and carries commands out, for tests in which an allocation is refused: what was not done for want of memory is
   done again. Prints the report, which is then the same. */
#include <stdio.h>
#include <string.h>

#include "fezdrok.h"

/* How often a part stands in a text. */
static size_t times(fezdrok_text text, const char *part) {
    size_t found = 0, length = strlen(part);
    for (size_t i = 0; i + length <= text.length; i++)
        found += !memcmp(text.at + i, part, length);
    return found;
}

/* The report, whose allocations may be refused too; then it is asked for again. */
static fezdrok_text report(fezdrok_session *session) {
    fezdrok_text told;
    while (fezdrok_call(session, "\"report\"", 8, &told) == FEZDROK_NO_MEMORY)
        ;
    return told;
}

/* Whether a call that had no memory was carried out all the same, as entry number COUNT of the report; -1 where neither is so. */
static int was_done(fezdrok_session *session, size_t count) {
    size_t done = times(report(session), "\"caller\"");
    return done == count ? 1 : done + 1 == count ? 0 : -1;
}

/* A command without a text: 0 grow, 1 insert, 2 delete, with its words. */
struct command {
    uint32_t which, a, b, c;
};

static uint8_t carry(fezdrok_session *session, struct command it, fezdrok_reply *reply) {
    if (it.which == 0)
        return fezdrok_grow(session, 3, it.a, it.b, it.c, reply);
    return it.which == 1 ? fezdrok_insert(session, 3, it.a, it.b, it.c, reply) : fezdrok_delete(session, 3, it.a, reply);
}

/* Questions, each of which is asked until there is memory for it. */
static void ask_typed(fezdrok_session *session, uint32_t u, fezdrok_reply *reply) {
    while (fezdrok_counts(session, reply) == FEZDROK_NO_MEMORY || fezdrok_route(session, u, 3, reply) == FEZDROK_NO_MEMORY)
        ;
    while (fezdrok_edge(session, 0, reply) == FEZDROK_NO_MEMORY || fezdrok_vertex(session, u, reply) == FEZDROK_NO_MEMORY)
        ;
}

/* Commands and questions without a text, behind so many entries of the report. Nothing is told where there is no memory. */
static int call_typed(fezdrok_session *session, size_t count) {
    static const struct command commands[] = {{1, 0, 4, 2}, {0, 0, 0, 2}, {1, 1, 4, 2}, {1, 2, 4, 2}, {1, 3, 4, 0}, {1, 2, 3, 2}, {1, 0, 2, 2}, {1, 0, 0, 2}, {2, 7, 0, 0}, {0, 4, 1, 0}};
    size_t length = sizeof commands / sizeof *commands;
    fezdrok_reply reply;
    for (size_t i = 0; i < length; i++) {
        int done = 0;
        while (!done && carry(session, commands[i], &reply) == FEZDROK_NO_MEMORY) {
            done = was_done(session, count + i + 1);
            if (done < 0 || reply.length || reply.refusal || reply.price || reply.is.grown.vertex || reply.is.grown.edge)
                return 1;
        }
        ask_typed(session, commands[i].a % 5, &reply);
    }
    while (fezdrok_undo(session, 1, &reply) == FEZDROK_NO_MEMORY)
        if (was_done(session, count + length) != 1)
            return 1;
    return reply.is.undone.entries != 1;
}

int main(void) {
    static const char *lines[] = {"[\"grow\",1,0,0]", "[\"grow\",2,0,1]", "[\"insert\",3,0,0]", "[\"insert\",0,2,1]", "[\"insert\",1,3,2]", "[\"planned\",0,1,0]", "{\"call\":[\"delete\",2],\"id\":7}", "[\"insert\",0,0,0]"};
    static const char settings[] = "{\"version\":2,\"prices\":[1,null,3]}";
    fezdrok_session *session;
    fezdrok_text told;
    uint8_t status;
    while ((status = fezdrok_open(settings, strlen(settings), &session, &told)) == FEZDROK_NO_MEMORY)
        if (session || told.length)
            return 1;
    for (size_t i = 0; !status && i < sizeof lines / sizeof *lines; i++)
        while ((status = fezdrok_call(session, lines[i], strlen(lines[i]), &told)) == FEZDROK_NO_MEMORY) {
            int done = told.length ? -1 : was_done(session, i + 1);
            if (done < 0)
                return 1;
            if (done) {
                status = FEZDROK_DONE; /* only its answer was lost */
                break;
            }
        }
    if (status || call_typed(session, sizeof lines / sizeof *lines))
        return 1;
    told = report(session);
    printf("%.*s\n", (int)told.length, told.at);
    return fezdrok_close(session);
}
