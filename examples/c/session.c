/* One edge at a time: session PROGRAM begins PROGRAM serve twice, over pipes. It asks the first some lines, and prints what
   it answers. To the second it sends 20,000 lines ahead, and prints how many answers came. */
#define _POSIX_C_SOURCE 200809L
#include <errno.h>
#include <fcntl.h>
#include <poll.h>
#include <signal.h>
#include <stdio.h>
#include <stdlib.h>
#include <string.h>
#include <sys/wait.h>
#include <unistd.h>

/* A process of `planar serve`, with the ends of the pipes to it and from it. */
struct session {
    pid_t process;
    int asked, answered;
};

/* A pipe that no program has which is begun later: else it would keep the input of this one open. */
static int own_pipe(int ends[2]) {
    return !pipe(ends) && fcntl(ends[0], F_SETFD, FD_CLOEXEC) != -1 && fcntl(ends[1], F_SETFD, FD_CLOEXEC) != -1;
}

/* Begins a process; 0 where the system has none. A program that is not there is told, and ends at the first line. */
static int begin(struct session *it, const char *program) {
    int to[2], from[2];
    if (!own_pipe(to) || !own_pipe(from) || fcntl(to[1], F_SETFL, O_NONBLOCK) == -1 || (it->process = fork()) < 0)
        return 0;
    if (!it->process) {
        dup2(to[0], 0); /* these two stay open in the program, and the four ends are closed in it */
        dup2(from[1], 1);
        execlp(program, program, "serve", (char *)NULL);
        perror(program);
        _exit(127);
    }
    close(to[0]); /* else we would not see the end of its answers */
    close(from[1]);
    it->asked = to[1];
    it->answered = from[0];
    return 1;
}

/* Asks lines, each of which ends with a line feed, prints their answers, if they are wanted, and gives how many came: fewer where
   the program has ended. What it takes is written and what it answers is read in turn, so there may be any number of lines. */
static size_t ask(struct session *it, const char *lines, FILE *answers) {
    size_t left = strlen(lines), due = 0, told = 0;
    for (size_t i = 0; i < left; i++)
        due += lines[i] == '\n';
    while (told < due) {
        struct pollfd ends[] = {{left ? it->asked : -1, POLLOUT, 0}, {it->answered, POLLIN, 0}};
        char part[65536];
        if (poll(ends, 2, -1) < 0 && errno != EINTR)
            break;
        if (ends[0].revents) {
            ssize_t count = write(it->asked, lines, left);
            if (count > 0)
                lines += count, left -= (size_t)count;
            else if (errno != EAGAIN && errno != EINTR)
                left = 0; /* the program has ended; it may have answered before */
        }
        if (ends[1].revents) {
            ssize_t count = read(it->answered, part, sizeof part);
            if (count == 0 || (count < 0 && errno != EINTR))
                break;
            for (ssize_t i = 0; i < count; i++)
                told += part[i] == '\n';
            if (answers && count > 0)
                fwrite(part, 1, (size_t)count, answers);
        }
    }
    return told;
}

/* Has the report told, and the session go on from it, as from one that was kept in a file. */
static void go_on_from_report(struct session *it) {
    char *line = NULL;
    size_t length;
    FILE *made = open_memstream(&line, &length);
    if (!made)
        return;
    fputs("{\"reopen\":", made);
    ask(it, "\"report\"\n", made);
    fseek(made, -1, SEEK_CUR); /* its line feed */
    fputs("}\n", made);
    if (!fclose(made))
        ask(it, line, stdout);
    free(line);
}

/* Closes the input of the program, which ends it, and gives its status. */
static int end(struct session *it) {
    int status = 0;
    close(it->asked);
    close(it->answered);
    waitpid(it->process, &status, 0);
    return WIFEXITED(status) ? WEXITSTATUS(status) : 128 + WTERMSIG(status);
}

int main(int count, char **words) {
    static const char *lines[] = {"{\"version\":1}\n", "[\"grow\",1,0,0]\n", "[\"route\",0,2]\n", "[\"insert\",0,2,7]\n", "[\"insert\",0,0,0]\n", "[\"delete\",0]\n", "\"picture\"\n", "[\"undo\",2]\n"};
    static char ahead[20000 * 15 + 1];
    const char *program = count > 1 ? words[1] : "planar";
    struct session one, other;
    int status, second;
    signal(SIGPIPE, SIG_IGN); /* a program that has ended is an error of write, and not our end */
    if (!begin(&one, program) || !begin(&other, program))
        return perror("session"), 1;
    for (size_t i = 0; i < sizeof lines / sizeof *lines && ask(&one, lines[i], stdout); i++)
        ;
    go_on_from_report(&one);
    ask(&one, "[\"undo\",1]\n[\"insert\",0,2,7]\n[\"delete\",0]\n\"renumber\"\n\"forget\"\n", stdout);
    status = end(&one);
    for (size_t i = 0; i < 20000; i++)
        memcpy(ahead + 15 * i, i ? "[\"delete\",  0]\n" : "{\"version\": 1}\n", 15);
    printf("%zu answers to lines that were sent ahead\n", ask(&other, ahead, NULL));
    second = end(&other);
    return status ? status : second;
}
