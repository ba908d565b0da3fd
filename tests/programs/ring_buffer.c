#include <signal.h>
#include <stddef.h>
#include <stdio.h>
#include <unistd.h>

enum { SIZE = 1 << 6, MASK = SIZE - 1 };

struct ring { unsigned head, tail; unsigned char bytes[SIZE]; };

static struct ring ring;
static volatile sig_atomic_t overflowed;

static unsigned fill(struct ring const *r) { return r->head - r->tail & MASK; }
static int put(struct ring *r, int c)
{
    unsigned next = (r->head + 1) & MASK;
    if (next == r->tail)
        return 0;
    r->bytes[r->head] = (unsigned char)c;
    r->head = next;
    return 1;
}
static int get(struct ring *r)
{
    int c;
    if (r->head == r->tail)
        return -1;
    c = r->bytes[r->tail];
    r->tail = r->tail + 1 & MASK;
    return c;
}

static void on_io(int s)
{
    overflowed = 1;
}

int main(void)
{
    char c;
    int n;

    signal(SIGIO, on_io);
    while ((n = (int)read(STDIN_FILENO, &c, 1)) == 1) {
        if (put(&ring, c)) continue;
        else {
            while (fill(&ring) > SIZE / 2) {
                int b = get(&ring);
                if (b < 0) break;
                putchar(b);
            }
            put(&ring, c);
        }
    }
    while ((n = get(&ring)) != -1)
        putchar(n);
    return overflowed ? 1 : 0;
}
