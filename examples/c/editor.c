/* One edge at a time, as an editor does it: opens a picture, asks what an edge would cross, puts it in, takes that back, takes
   another out, and prints what each line is answered. */
#include <stdio.h>
#include <string.h>

#include "fezdrok.h"

/* Prints a text, or what the status says where there is none. */
static uint8_t tell(uint8_t status, fezdrok_text answer) {
    if (status && status != FEZDROK_FAULT)
        printf("%s\n", fezdrok_status_text(status));
    else
        printf("%.*s\n", (int)answer.length, answer.at);
    return status;
}

int main(void) {
    static const char *lines[] = {"[\"grow\",1,0,0]", "[\"route\",0,2]", "[\"insert\",0,2,0]", "[\"undo\",1]", "[\"insert\",0,2,7]", "[\"insert\",0,0,0]", "[\"delete\",0]", "\"counts\"", "\"report\""};
    static const char settings[] = "{\"version\":1}";
    fezdrok_session *session = NULL;
    fezdrok_text answer = {"", 0};
    uint8_t status = tell(fezdrok_open(settings, strlen(settings), &session, &answer), answer);
    for (size_t i = 0; !status && i < sizeof lines / sizeof *lines; i++)
        status = tell(fezdrok_call(session, lines[i], strlen(lines[i]), &answer), answer);
    fezdrok_close(session);
    return status;
}
