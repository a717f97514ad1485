/* Searches random graphs for pictures with few crossings, each by its text and by its arrays, and compares what both tell:
 * arrays COUNT. Some have prices, edges that must have no crossing, a loop, or an effort that is none. */
#define _GNU_SOURCE
#include <stdio.h>
#include <stdlib.h>
#include <string.h>

#include "fezdrok.h"

enum { VERTICES = 14, EDGES = 30, PRICES = 3 };

static uint32_t state;

/* A random number below a bound. */
static uint32_t below(uint32_t bound) {
    state = state * 1664525u + 1013904223u;
    return (state >> 8) % bound;
}

/* What a search tells in the end, as a text of the caller's. */
static char *told(uint8_t status, fezdrok_search *search, fezdrok_text answer) {
    char *copy;
    while (status == FEZDROK_DONE) {
        status = fezdrok_search_call(search, "\"step\"", 6, &answer);
        if (status == FEZDROK_DONE && memmem(answer.at, answer.length, "\"ended\":true", 12)) {
            status = fezdrok_search_call(search, "\"pictures\"", 10, &answer);
            break;
        }
    }
    copy = malloc(answer.length + 8);
    if (!copy)
        exit(3);
    sprintf(copy, "%d ", status);
    memcpy(copy + 2, answer.at, answer.length);
    copy[answer.length + 2] = 0;
    if (search && fezdrok_search_close(search) != FEZDROK_DONE)
        exit(4);
    return copy;
}

/* Whether the graph of a seed gives the same both ways. */
static int is_same(uint32_t seed) {
    static const char *const efforts[] = {"default", "quick", "thorough"};
    uint32_t edges[EDGES][3], prices[PRICES];
    char text[4096], *at = text, *by_text, *by_arrays;
    fezdrok_search *search;
    fezdrok_text answer;
    int same;
    fezdrok_graph graph = {0};
    uint8_t status;
    state = seed;
    graph = (fezdrok_graph){VERTICES, EDGES, (const uint32_t(*)[3])edges, seed % 2 ? PRICES : 0, prices, seed % 7 ? seed % 2 : 9, seed, seed % 3};
    for (int i = 0; i < EDGES; i++) {
        edges[i][0] = below(VERTICES);
        edges[i][1] = seed % 11 ? (edges[i][0] + 1 + below(VERTICES - 1)) % VERTICES : below(VERTICES);
        edges[i][2] = below(PRICES);
    }
    for (int i = 0; i < PRICES; i++)
        prices[i] = 1 + below(9);
    if (seed % 5 == 0)
        prices[1] = 0;
    at += sprintf(at, "{\"vertices\":%u,\"version\":%d,\"seed\":%u,\"effort\":\"%s\"", graph.vertices, seed % 5 || !graph.price_count ? 1 : 2, seed, graph.effort < 3 ? efforts[graph.effort] : "other");
    if (graph.threads)
        at += sprintf(at, ",\"threads\":%u", graph.threads);
    for (size_t i = 0; i < graph.price_count; i++)
        at += prices[i] ? sprintf(at, "%s%u", i ? "," : ",\"prices\":[", prices[i]) : sprintf(at, "%snull", i ? "," : ",\"prices\":[");
    at += sprintf(at, "%s,\"edges\":[", graph.price_count ? "]" : "");
    for (int i = 0; i < EDGES; i++)
        at += sprintf(at, "%s[%u,%u,%u]", i ? "," : "", edges[i][0], edges[i][1], edges[i][2]);
    sprintf(at, "]}");
    status = fezdrok_search_open(text, strlen(text), &search, &answer);
    by_text = told(status, search, answer);
    status = fezdrok_search_open_graph(&graph, &search, &answer);
    by_arrays = told(status, search, answer);
    same = !strcmp(by_text, by_arrays);
    if (!same)
        printf("%u: %s\n%s\n%s\n", seed, text, by_text, by_arrays);
    free(by_text);
    free(by_arrays);
    return same;
}

int main(int count, char **words) {
    uint32_t graphs = count > 1 ? (uint32_t)atoi(words[1]) : 1;
    fezdrok_graph none = {0};
    fezdrok_search *search;
    fezdrok_text answer;
    for (uint32_t seed = 1; seed <= graphs; seed++)
        if (!is_same(seed))
            return 1;
    if (fezdrok_search_open_graph(NULL, &search, &answer) != FEZDROK_NULL_OR_CLOSED)
        return 2;
    none.edge_count = 1;
    if (fezdrok_search_open_graph(&none, &search, &answer) != FEZDROK_NULL_OR_CLOSED)
        return 2;
    none.edge_count = 0;
    if (fezdrok_search_open_graph(&none, &search, &answer) != FEZDROK_DONE || fezdrok_search_close(search) != FEZDROK_DONE)
        return 2;
    printf("%u graphs\n", graphs);
    return 0;
}
