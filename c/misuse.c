/* Uses sessions wrongly, for tests: each call has its status, and changes nothing. With a word, the memory of a closed session is
   left alone. */
#include <pthread.h>
#include <stdio.h>
#include <stdlib.h>
#include <string.h>

#include "fezdrok.h"

static int wrong;

/* Compares a status with the one that is due, and a text where one is due. */
static void expect(const char *what, uint8_t status, uint8_t due, fezdrok_text told, const char *text) {
    if (status != due || (text && (told.length != strlen(text) || memcmp(told.at, text, told.length)))) {
        printf("%s: status %d, %.*s\n", what, status, (int)told.length, told.at);
        wrong = 1;
    }
}

struct asked {
    fezdrok_session *session;
    size_t done, refused;
};

/* Lets a vertex grow a thousand times, every other time without a text, and on until the session was in use. */
static void *grow(void *it) {
    struct asked *asked = it;
    fezdrok_reply reply;
    fezdrok_text told;
    while (asked->done < 1000 || (!asked->refused && asked->done < 20000)) {
        uint8_t status = asked->done % 2 ? fezdrok_grow(asked->session, 0, 0, 0, 0, &reply) : fezdrok_call(asked->session, "[\"grow\",0,0,0]", 14, &told);
        if (status == FEZDROK_DONE)
            asked->done++;
        else if (status == FEZDROK_IN_USE)
            asked->refused++;
        else
            break;
    }
    return NULL;
}

/* Two threads call one session: each call is done whole, or the session is in use. */
static void use_at_once(fezdrok_session *session) {
    struct asked two[] = {{session, 0, 0}, {session, 0, 0}};
    pthread_t threads[2];
    fezdrok_text told;
    char due[128];
    int length;
    for (int i = 0; i < 2; i++)
        pthread_create(&threads[i], NULL, grow, &two[i]);
    for (int i = 0; i < 2; i++)
        pthread_join(threads[i], NULL);
    length = snprintf(due, sizeof due, "\"edges\":%zu,", two[0].done + two[1].done + 1);
    expect("counts", fezdrok_call(session, "\"counts\"", 8, &told), FEZDROK_DONE, told, NULL);
    wrong |= two[0].done < 1000 || two[1].done < 1000 || !(two[0].refused + two[1].refused);
    for (size_t i = 0; i + (size_t)length <= told.length; i++)
        if (!memcmp(told.at + i, due, (size_t)length))
            return;
    printf("two threads: %.*s, and not %s\n", (int)told.length, told.at, due);
    wrong = 1;
}

/* A judgement whose text has no room: it says how much it needs, and the output is as it was. */
static void judge_without_room(void) {
    const uint8_t *input = (const uint8_t *)"{}";
    uint8_t output[128] = "unchanged";
    size_t size = 0, again = 0;
    fezdrok_text told = {(const char *)output, 9};
    expect("no room", fezdrok_check(input, 2, output, 17, &size), FEZDROK_TOO_SMALL, told, "unchanged");
    expect("a byte too few", fezdrok_check(input, 2, output, size - 1, &again), FEZDROK_TOO_SMALL, told, "unchanged");
    expect("room", fezdrok_check(input, 2, output, size, &again), FEZDROK_FAULT, told, NULL);
    wrong |= size < 18 || again != size || output[size - 1] != '\n' || memcmp(output, "planar: 52 ", 11);
}

/* Judgements that are given NULL: nothing is done, but where the length of what is NULL is 0. */
static void judge_nothing(uint8_t (*judge)(const uint8_t *, size_t, uint8_t *, size_t, size_t *)) {
    uint8_t output[128] = "unchanged";
    size_t size = 9, length = 0;
    fezdrok_text told = {(const char *)output, 9};
    expect("no input", judge(NULL, 1, output, sizeof output, &size), FEZDROK_NULL_OR_CLOSED, told, "unchanged");
    expect("no output", judge((const uint8_t *)"{}", 2, NULL, 1, &size), FEZDROK_NULL_OR_CLOSED, told, "unchanged");
    expect("no size", judge((const uint8_t *)"{}", 2, output, sizeof output, NULL), FEZDROK_NULL_OR_CLOSED, told, "unchanged");
    wrong |= size != 9;
    expect("an empty output", judge((const uint8_t *)"{}", 2, NULL, 0, &length), FEZDROK_TOO_SMALL, told, "unchanged");
    expect("an empty input", judge(NULL, 0, output, sizeof output, &size), FEZDROK_FAULT, told, NULL);
    wrong |= length < 18 || size < 18 || memcmp(output, "planar: 50 NotJson\n", size);
}

int main(int count, char **words) {
    static const char not_open[] = "{\"fault\":[72,\"NotOpen\"]}", too_long[] = "{\"fault\":[51,\"TooLong\"]}", settings[] = "{\"version\":1}";
    static const char seed[] = "{\"crossings\":0,\"edges\":1,\"faces\":1,\"segments\":1,\"vertices\":2}";
    const fezdrok_text none = {"unchanged", 9};
    size_t long_length = 300000000;
    char *zeros = calloc(long_length, 1);
    fezdrok_session *session, *another = NULL;
    fezdrok_reply reply;
    fezdrok_text told = none;
    judge_without_room();
    judge_nothing(fezdrok_check);
    judge_nothing(fezdrok_replay);
    expect("no settings", fezdrok_open(NULL, 1, &session, &told), FEZDROK_NULL_OR_CLOSED, told, none.at);
    expect("no place for the session", fezdrok_open(settings, 13, NULL, &told), FEZDROK_NULL_OR_CLOSED, told, none.at);
    expect("no place for the answer", fezdrok_open(settings, 13, &session, NULL), FEZDROK_NULL_OR_CLOSED, told, none.at);
    expect("no session", fezdrok_call(NULL, settings, 13, &told), FEZDROK_NULL_OR_CLOSED, told, none.at);
    expect("no session to close", fezdrok_close(NULL), FEZDROK_NULL_OR_CLOSED, told, none.at);
    if (zeros) {
        expect("long settings", fezdrok_open(zeros, long_length, &session, &told), FEZDROK_FAULT, told, too_long);
        expect("a call behind a fault", fezdrok_call(session, "\"counts\"", 8, &told), FEZDROK_FAULT, told, too_long);
        expect("counts behind a fault", fezdrok_counts(session, &reply), FEZDROK_FAULT, none, NULL);
        expect("an opening behind a fault", fezdrok_call(session, "{\"open\":{\"version\":1}}", 22, &told), FEZDROK_FAULT, told, too_long);
        expect("close", fezdrok_close(session), FEZDROK_DONE, none, NULL);
        expect("no opening", fezdrok_open("\"about\"", 7, &session, &told), FEZDROK_DONE, told, NULL);
        expect("not open", fezdrok_call(session, "\"counts\"", 8, &told), FEZDROK_DONE, told, not_open);
        expect("counts where nothing is open", fezdrok_counts(session, &reply), FEZDROK_DONE, none, NULL);
        wrong |= reply.refusal != 72 || reply.length;
        expect("a long line", fezdrok_call(session, zeros, 65537, &told), FEZDROK_DONE, told, too_long);
        expect("an opening", fezdrok_call(session, "{\"open\":{\"version\":1}}", 22, &told), FEZDROK_DONE, told, seed);
        expect("close", fezdrok_close(session), FEZDROK_DONE, none, NULL);
    }
    free(zeros);
    expect("empty settings", fezdrok_open(NULL, 0, &another, &told), FEZDROK_FAULT, told, "{\"fault\":[50,\"NotJson\"]}");
    expect("close", fezdrok_close(another), FEZDROK_DONE, none, NULL);
    expect("open", fezdrok_open(settings, 13, &session, &told), FEZDROK_DONE, told, seed);
    told = none;
    expect("no reply", fezdrok_counts(session, NULL), FEZDROK_NULL_OR_CLOSED, none, NULL);
    expect("counts of no session", fezdrok_counts(NULL, &reply), FEZDROK_NULL_OR_CLOSED, none, NULL);
    expect("no line", fezdrok_call(session, NULL, 1, &told), FEZDROK_NULL_OR_CLOSED, told, none.at);
    expect("no answer", fezdrok_call(session, settings, 13, NULL), FEZDROK_NULL_OR_CLOSED, told, none.at);
    expect("an empty line", fezdrok_call(session, NULL, 0, &told), FEZDROK_DONE, told, "{\"fault\":[50,\"NotJson\"]}");
    use_at_once(session);
    expect("close", fezdrok_close(session), FEZDROK_DONE, none, NULL);
    if (count < 2) {
        told = none;
        expect("close again", fezdrok_close(session), FEZDROK_NULL_OR_CLOSED, none, NULL);
        expect("counts of a closed one", fezdrok_counts(session, &reply), FEZDROK_NULL_OR_CLOSED, none, NULL);
        expect("closed", fezdrok_call(session, settings, 13, &told), FEZDROK_NULL_OR_CLOSED, told, none.at);
    }
    (void)words;
    if (strcmp(fezdrok_version(), FEZDROK_VERSION) || strcmp(fezdrok_status_text(FEZDROK_IN_USE), "the session is in use"))
        wrong = 1;
    return wrong;
}
