#include <stdio.h>
#include <stdlib.h>
#include <string.h>

enum token { END, NUMBER, PLUS = '+', MINUS = '-', TIMES = '*', OPEN = '(', CLOSE = ')' };

struct scanner { const char *at; enum token now; long value; };

static void advance(struct scanner *s)
{
    while (*s->at == ' ' || *s->at == '\t') s->at++;
    switch (*s->at) {
    case '\0': case '\n':
        s->now = END;
        return;
    case '+': case '-': case '*': case '(': case ')':
        s->now = (enum token)*s->at++;
        return;
    }
    s->now = NUMBER;
    s->value = 0;
    if (!(*s->at >= '0' && *s->at <= '9')) { fputs("bad input\n", stderr); exit(3); }
    do s->value = s->value * 10 + (*s->at++ - '0'); while (*s->at >= '0' && *s->at <= '9');
}

static long sum(struct scanner *s);

static long factor(struct scanner *s)
{
    long v;
    if (s->now == MINUS) { advance(s); return -factor(s); }
    if (s->now != OPEN) { v = s->value; advance(s); return v; }
    advance(s);
    v = sum(s);
    if (s->now == CLOSE) advance(s);
    return v;
}

static long product(struct scanner *s)
{
    long v = factor(s);
    for (; s->now == TIMES; v *= factor(s)) advance(s);
    return v;
}

static long sum(struct scanner *s)
{
    long v = product(s);
    while (s->now == PLUS || s->now == MINUS) {
        int minus = s->now == MINUS;
        advance(s);
        if (minus) v -= product(s); else v += product(s);
    }
    return v;
}

int main(void)
{
    char line[200];
    while (fgets(line, (int)sizeof line, stdin) != NULL) {
        struct scanner s = { line };
        advance(&s);
        printf("%ld\n", sum(&s));
    }
    return 0;
}
