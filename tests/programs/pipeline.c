#include <stdio.h>
#include <stdlib.h>
#include <sys/wait.h>
#include <unistd.h>

static const char *const first[] = { "ls", "-l", 0 }, *const second[] = { "wc", "-l", 0, };

static void run(const char *const *words, int in, int out)
{
    if (in != 0) { dup2(in, 0); close(in); }
    if (out != 1) { dup2(out, 1); close(out); }
    execvp(words[0], (char **)words);
    perror(words[0]);
    _exit(127);
}

int main(void)
{
    int ends[2], status = 0, left = 2;
    pid_t children[2] = { 0, 0 };

    if (pipe(ends) != 0)
        return perror("pipe"), EXIT_FAILURE;
    for (int k = 0; k < 2; k++)
        switch (children[k] = fork()) {
        case 0:
            close(ends[!k ? 0 : 1]);
            run(k ? second : first, k ? ends[0] : 0, k ? 1 : ends[1]);
        case -1:
            left--;
            break;
        default:
            ;
        }
    close(ends[0]), close(ends[1]);
    while (left > 0) {
        int one;
        if (wait(&one) < 0) break;
        left -= 1;
        status |= one;
    }
    return status != 0;
}
