#include <signal.h>
#include <stdio.h>
#include <string.h>
#include <unistd.h>

struct inner { int x, *y; };
struct outer {
    struct inner parts[2];
    struct { char tag; short int id; } named;
    enum { LOW = -1, MIDDLE, HIGH = MIDDLE + 10, } level;
    const char *labels[3], *last;
    int (*compare)(const void *, const void *);
    void (*hooks[2])(int);
};
struct forward;
struct forward *make(struct forward *, struct outer a[], int (*)(void), int (*named)(int), const char *const *, unsigned b[4]);

static int cell;
static int compare(const void *a, const void *b)
{
    const int *x = a, *y = b;
    return *x < *y ? -1 : *x > *y;
}
static void hook(int s) { cell = 0; }

static struct outer all[2] = {
    { { { 1, &cell }, { .x = 2, .y = &cell, } }, { 'a', 1 }, HIGH, { "one", "two", }, "last", compare, { hook, 0 } },
    { .level = LOW, .labels = { "only" }, .hooks = { 0, &hook } },
};

int main(void)
{
    struct outer *o = all;
    struct { struct inner *at; } where = { .at = o[1].parts };
    int k = 0;

    where.at->x = 3;
    (*where.at).y = &(*o).parts[0].x;
    while (k < 2 && o[k].labels[0] != 0) {
        printf("%s %d\n", o[k].labels[0], (o[k].compare ? o[k].compare : compare)(&o->parts[0].x, where.at[0].y));
        if (o[k].hooks[k] != 0)
            o[k].hooks[k](SIGINT);
        k++;
    }
    memcpy(&all[0].named, &all[1].named, sizeof all->named);
    return !!(k - 2) | all[0].named.id;
}
