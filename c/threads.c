/* Sessions and threads, for tests: two threads have a session each at once, and one session goes from thread to thread. Each is
 * answered as it is where nobody else runs. */
#include <pthread.h>
#include <stdio.h>
#include <string.h>

#include "fezdrok.h"

enum { THREADS = 2, TURNS = 20, CALLS = 25 };

static const char settings[] = "{\"version\":1}";

/* Makes some calls of a session, as lines and without a text. The turn says which. Status 0 where each is done. */
static int call(fezdrok_session *session, uint32_t turn) {
    fezdrok_reply reply;
    fezdrok_text told;
    int failed = 0;
    for (uint32_t i = 0; i < CALLS; i++) {
        uint32_t place = turn * CALLS + i;
        failed |= fezdrok_grow(session, 0, place / 2, 0, 0, &reply) || reply.refusal;
        failed |= fezdrok_insert(session, 1, place / 3, place + 1, 0, &reply);
        failed |= fezdrok_vertex(session, place / 4, &reply) || !reply.length || reply.items[reply.length - 1].side > 1;
        failed |= fezdrok_call(session, "\"counts\"", 8, &told) || told.at[told.length - 1] != '}';
    }
    return failed;
}

/* Opens a session, makes all calls and reports how large the picture is then. */
static void *own(void *it) {
    fezdrok_reply *counts = it;
    fezdrok_session *session;
    fezdrok_text told;
    int failed = fezdrok_open(settings, strlen(settings), &session, &told);
    for (uint32_t turn = 0; turn < TURNS && !failed; turn++)
        failed = call(session, turn);
    failed |= fezdrok_counts(session, counts) || fezdrok_close(session);
    return failed ? it : NULL;
}

/* One session, and whose turn it is. */
static struct {
    pthread_mutex_t lock;
    pthread_cond_t passed;
    fezdrok_session *session;
    uint32_t turn;
    int failed;
} shared = {PTHREAD_MUTEX_INITIALIZER, PTHREAD_COND_INITIALIZER, NULL, 0, 0};

/* Takes each turn that is this thread's. What the other was answered is read in the session's memory, which is this one's now. */
static void *in_turn(void *it) {
    uint32_t mine = *(uint32_t *)it;
    pthread_mutex_lock(&shared.lock);
    while (shared.turn < TURNS) {
        if (shared.turn % THREADS == mine) {
            shared.failed |= call(shared.session, shared.turn);
            shared.turn++;
            pthread_cond_broadcast(&shared.passed);
        } else
            pthread_cond_wait(&shared.passed, &shared.lock);
    }
    pthread_mutex_unlock(&shared.lock);
    return NULL;
}

int main(void) {
    pthread_t threads[THREADS];
    fezdrok_reply counts[THREADS], last, due;
    uint32_t places[THREADS];
    fezdrok_text told;
    void *failed, *alone = own(&due);
    for (uint32_t i = 0; i < THREADS; i++)
        pthread_create(&threads[i], NULL, own, &counts[i]);
    for (uint32_t i = 0; i < THREADS; i++) {
        pthread_join(threads[i], &failed);
        if (alone || failed || memcmp(&counts[i].is, &due.is, sizeof due.is))
            return 1;
    }
    if (fezdrok_open(settings, strlen(settings), &shared.session, &told))
        return 1;
    for (uint32_t i = 0; i < THREADS; i++) {
        places[i] = i;
        pthread_create(&threads[i], NULL, in_turn, &places[i]);
    }
    for (uint32_t i = 0; i < THREADS; i++)
        pthread_join(threads[i], NULL);
    if (shared.failed || fezdrok_counts(shared.session, &last) || memcmp(&last.is, &due.is, sizeof due.is))
        return 1;
    printf("%u crossings\n", due.is.counts.crossings);
    return fezdrok_close(shared.session);
}
