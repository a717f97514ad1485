/* Loads the shared library, has a session answer and unloads it, three times, for tests: loaded LIBRARY. */
#define _GNU_SOURCE
#include <dlfcn.h>
#include <stdio.h>
#include <string.h>

#include "fezdrok.h"

/* A function of the library, whose pointer is copied, for C has no cast from one to an object to one to a function. */
static int find(void *library, const char *name, void *function) {
    void *found = dlsym(library, name);
    memcpy(function, &found, sizeof found);
    return !found;
}

/* Has a session answer how large its picture is. */
static int ask(void *library) {
    uint8_t (*open)(const char *, size_t, fezdrok_session **, fezdrok_text *), (*close)(fezdrok_session *);
    uint8_t (*call)(fezdrok_session *, const char *, size_t, fezdrok_text *);
    fezdrok_session *session;
    fezdrok_text told;
    if (find(library, "fezdrok_open", &open) || find(library, "fezdrok_call", &call) || find(library, "fezdrok_close", &close))
        return 1;
    if (open("{\"version\":1}", 13, &session, &told) || call(session, "\"counts\"", 8, &told))
        return 1;
    printf("%.*s\n", (int)told.length, told.at);
    return close(session);
}

int main(int count, char **words) {
    for (int i = 0; i < 3 && count == 2; i++) {
        void *library = dlopen(words[1], RTLD_NOW);
        if (!library || ask(library) || dlclose(library) || dlopen(words[1], RTLD_NOW | RTLD_NOLOAD))
            return 1;
    }
    return count != 2;
}
