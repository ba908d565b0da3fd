#include <signal.h>
#include <stdio.h>
#include <string.h>
#include <stdlib.h>
#include <sys/wait.h>
#include <unistd.h>

typedef struct word { char *text; struct word *next; } word_t;
typedef int builtin_t(word_t *);
typedef struct { const char *name; int (*run)(word_t *); } command_t;

static int leave(word_t *w) { exit(w->next ? atoi(w->next->text) : 0); }
static int change(word_t *w)
{
    return w->next != 0 && chdir(w->next->text) == 0 ? 0 : 1;
}

static const command_t commands[] = { { "exit", leave }, { .name = "cd", .run = change }, { 0, 0 } };

static int launch(char *arguments[])
{
    sigset_t none;
    int status = 0;
    pid_t child = fork();

    switch (child) {
    case -1:
        perror("fork");
        return 1;
    case 0:
        sigemptyset(&none);
        pthread_sigmask(SIG_SETMASK, &none, 0);
        execvp(*arguments, arguments);
        _exit(127);
    default:
        do
            if (waitpid(child, &status, 0) < 0) return 1;
        while (!WIFEXITED(status) && !WIFSIGNALED(status));
    }
    return WEXITSTATUS(status);
}

int main(int argc, char **argv)
{
    char line[1024], *arguments[64];
    int last = 0;

    signal(SIGINT, SIG_IGN);
    while (fgets(line, sizeof line, stdin)) {
        int n = 0;
        for (char *p = line, *q; n < 63; p = q + 1) {
            q = strchr(p, ' ');
            arguments[n++] = p;
            if (!q) break;
            *q = '\0';
        }
        arguments[n] = 0;
        for (int k = 0; commands[k].name; ++k)
            if (!strcmp(commands[k].name, arguments[0])) { last = 1; }
        last = launch(arguments);
        printf("%d\n", last);
    }
    return last;
}
