#include <signal.h>
#include <stdio.h>
#include <string.h>

enum kind { ENDS, CORE, STOPS, IGNORED, GOES_ON };

static const struct {
    int number;
    char name[8];
    enum kind kind;
} signals[] = {
    { SIGHUP, "HUP", ENDS }, { SIGINT, "INT", ENDS }, { SIGQUIT, "QUIT", CORE },
    { .number = SIGCHLD, .name = "CHLD", .kind = IGNORED }, { SIGCONT, "CO" "NT", GOES_ON },
    { 0, "", ENDS },
};

static const char *what(enum kind k)
{
    switch (k) {
    case ENDS: return "ends";
    case CORE: return "ends with a core";
    case STOPS: return "stops";
    case IGNORED: case GOES_ON:
        return k == GOES_ON ? "goes on" : "ignored";
    }
    return 0;
}

int main(int argc, char **argv)
{
    int k, found = 0;
    for (k = 0; signals[k].number; k++) {
        if (argc > 1 && strcmp(argv[1], signals[k].name) != 0)
            continue;
        found = !0;
        printf("%2d SIG%s %s\n", signals[k].number, signals[k].name, what(signals[k].kind));
    }
    return !found;
}
