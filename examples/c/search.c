/* SPDX-License-Identifier: MIT OR Apache-2.0 */
/* Reads a graph, searches for pictures of it with few crossings step by step, and prints them: what `planar planarize` prints.
 * With a number as its argument it asks the search to end after so many steps. */
#include "fezdrok.h"
#include <stdio.h>
#include <stdlib.h>
#include <string.h>

static fezdrok_search *search;

/* What the search answers; the program ends where it does not. */
static fezdrok_text ask(const char *request) {
    fezdrok_text answer;
    uint8_t status = fezdrok_search_call(search, request, strlen(request), &answer);
    if (status != FEZDROK_DONE) {
        fprintf(stderr, "search: %s\n", fezdrok_status_text(status));
        exit(3);
    }
    return answer;
}

/* Whether how far the search has come says that it has ended. */
static int has_ended(fezdrok_text way) {
    static const char ended[] = "\"ended\":true";
    size_t length = sizeof ended - 1;
    for (size_t at = 0; at + length <= way.length; at++)
        if (!memcmp(way.at + at, ended, length))
            return 1;
    return 0;
}

int main(int count, char **words) {
    static char graph[1 << 20];
    long steps = count > 1 ? atol(words[1]) : -1;
    size_t length = fread(graph, 1, sizeof graph, stdin);
    fezdrok_text answer;
    uint8_t status = fezdrok_search_open(graph, length, &search, &answer);
    if (status != FEZDROK_DONE) {
        printf("%.*s\n", (int)answer.length, answer.at);
        fezdrok_search_close(search);
        return status;
    }
    do {
        if (steps-- == 0)
            ask("\"end\"");
    } while (!has_ended(ask("\"step\"")));
    answer = ask("\"pictures\"");
    printf("%.*s\n", (int)answer.length, answer.at);
    return fezdrok_search_close(search);
}
