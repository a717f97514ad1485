/* `planar serve` in process, for tests: answers each line of standard input. With a number, so many sessions are opened and closed
   before by the first line. */
#define _POSIX_C_SOURCE 200809L
#include <stdio.h>
#include <stdlib.h>

#include "fezdrok.h"

int main(int count, char **words) {
    fezdrok_session *session = NULL;
    fezdrok_text answer;
    char *line = NULL;
    size_t room = 0;
    ssize_t length;
    uint8_t status = FEZDROK_DONE;
    while (!status && (length = getline(&line, &room, stdin)) > 0) {
        length -= line[length - 1] == '\n';
        for (int i = session || count < 2 ? 0 : atoi(words[1]); i > 0 && !status; i--) {
            status = fezdrok_open(line, (size_t)length, &session, &answer);
            fezdrok_close(session);
            session = NULL;
        }
        status = session ? fezdrok_call(session, line, (size_t)length, &answer) : fezdrok_open(line, (size_t)length, &session, &answer);
        fwrite(answer.at, 1, answer.length, status ? stderr : stdout);
        fputc('\n', status ? stderr : stdout);
    }
    free(line);
    fezdrok_close(session);
    return status;
}
