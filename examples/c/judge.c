/* Judges a picture or a report: judge check|replay < FILE. It prints what `planar` prints, by the static library. */
#include <signal.h>
#include <stdio.h>
#include <stdlib.h>
#include <string.h>

#include "fezdrok.h"

/* Reads standard input to its end, or to an error of it; NULL if out of memory. */
static uint8_t *read_all(size_t *length) {
    size_t room = 1 << 16, had = 0, got;
    uint8_t *bytes = malloc(room);
    while (bytes && (got = fread(bytes + had, 1, room - had, stdin)) > 0) {
        had += got;
        if (had == room) {
            uint8_t *larger = realloc(bytes, room *= 2);
            if (!larger)
                free(bytes);
            bytes = larger;
        }
    }
    *length = had;
    return bytes;
}

/* Tells a fault that the library does not tell, as `planar` does, and gives its status. */
static uint8_t tell(const char *fault, uint8_t status) {
    fprintf(stderr, "planar: %s\n", fault);
    return status;
}

int main(int count, char **words) {
    if (count != 2 || (strcmp(words[1], "check") && strcmp(words[1], "replay"))) {
        fputs("usage: judge check|replay < FILE\n", stderr);
        return 2;
    }
    signal(SIGPIPE, SIG_IGN); /* an output that nobody reads is an error of fflush, and not our end */
    size_t length, size;
    uint8_t *input = read_all(&length);
    if (!input)
        return tell("8 Memory", FEZDROK_NO_MEMORY);
    if (ferror(stdin)) {
        free(input);
        return tell("55 ReadFault", FEZDROK_FAULT);
    }
    uint8_t few[16], *text = few, *more = NULL, status;
    size_t room = sizeof few;
    int is_check = !strcmp(words[1], "check");
    while ((status = is_check ? fezdrok_check(input, length, text, room, &size) : fezdrok_replay(input, length, text, room, &size)) == FEZDROK_TOO_SMALL) {
        free(more);
        text = more = malloc(room = size); /* the size is that of this call's text, and the next may have a longer one */
        if (!text) {
            free(input);
            return tell("8 Memory", FEZDROK_NO_MEMORY);
        }
    }
    FILE *stream = status == FEZDROK_DONE ? stdout : stderr;
    int is_written = fwrite(text, 1, size, stream) == size && !fflush(stream);
    free(more);
    free(input);
    return is_written || status != FEZDROK_DONE ? status : tell("56 WriteFault", FEZDROK_FAULT);
}
