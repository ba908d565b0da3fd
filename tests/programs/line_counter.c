#include <fcntl.h>
#include <stdio.h>
#include <string.h>
#include <unistd.h>

struct counts { unsigned long lines, words; unsigned long long bytes; };

static int is_blank(int c) { return c == ' ' || c == '\t' || c == '\n' || c == '\v' || c == '\f' || c == '\r'; }

static int count(int fd, struct counts *into)
{
    char block[512];
    int in_word = 0;
    ssize_t got;

    while ((got = read(fd, block, sizeof(block))) > 0) {
        into->bytes += got;
        for (ssize_t i = 0; i < got; i++) {
            char c = block[i];
            into->lines += c == '\n';
            if (is_blank(c)) in_word = 0;
            else if (!in_word) { in_word = 1; into->words++; }
        }
    }
    return got < 0 ? -1 : 0;
}

static void print(const struct counts *c, const char *name)
{
    printf("%8lu %8lu %8llu %s\n", c->lines, c->words, c->bytes, name);
}

int main(int argc, char **argv)
{
    struct counts all, one;
    int bad = 0;

    memset(&all, 0, sizeof all);
    for (int k = 1; k < argc; k++) {
        int fd = open(argv[k], O_RDONLY);
        if (fd < 0) { bad |= 1; continue; }
        memset(&one, 0, sizeof one);
        if (count(fd, &one)) bad |= 2;
        all.lines += one.lines; all.words += one.words; all.bytes += one.bytes;
        print(&one, argv[k]);
        close(fd);
    }
    print(&all, "total");
    return bad;
}
