/* Times a session from C: sessions COUNT < LINES. The first line opens the session, each further one is a call that is made COUNT
 * times. Prints the microseconds of opening and closing, of each call, and of a refused insertion and the counts without a text, the
 * least of a hundred runs. */
#include "fezdrok.h"

#include <stdio.h>
#include <stdlib.h>
#include <string.h>
#include <time.h>

static double now(void) {
    struct timespec time;
    clock_gettime(CLOCK_MONOTONIC, &time);
    return time.tv_sec * 1e6 + time.tv_nsec / 1e3;
}

/* Makes a call so often, or opens a session where there is none yet, and closes it. */
static double timed(fezdrok_session *session, const char *line, size_t length, long count) {
    fezdrok_text answer;
    double begun = now();
    for (long i = 0; i < count; i++) {
        fezdrok_session *made = session;
        if (session ? fezdrok_call(session, line, length, &answer) : fezdrok_open(line, length, &made, &answer))
            exit(1);
        if (!session)
            fezdrok_close(made);
    }
    return (now() - begun) / count;
}

/* Makes a call without a text so often: an insertion that is refused, or the counts. */
static double timed_typed(fezdrok_session *session, int is_insertion, long count) {
    fezdrok_reply reply;
    double begun = now();
    for (long i = 0; i < count; i++)
        if (is_insertion ? fezdrok_insert(session, 0, 0, 0, 0, &reply) : fezdrok_counts(session, &reply))
            exit(1);
    return (now() - begun) / count;
}

int main(int argc, char **argv) {
    static char line[1 << 20];
    long count = argc == 2 ? atol(argv[1]) : 0;
    fezdrok_session *session = NULL;
    fezdrok_text answer;
    if (count < 1)
        return 2;
    while (fgets(line, sizeof line, stdin)) {
        double least = 1e9;
        size_t length = strcspn(line, "\n");
        for (int run = 0; run < 100; run++) {
            double time = timed(session, line, length, session ? count : count / 20 + 1);
            least = time < least ? time : least;
        }
        printf("%.3f\n", least);
        if (!session && fezdrok_open(line, length, &session, &answer))
            return 1;
    }
    for (int is_insertion = 1; is_insertion >= 0; is_insertion--) {
        double least = 1e9;
        for (int run = 0; run < 100; run++) {
            double time = timed_typed(session, is_insertion, count);
            least = time < least ? time : least;
        }
        printf("%.3f\n", least);
    }
    return fezdrok_close(session);
}
