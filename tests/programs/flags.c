#include <stdio.h>
#include <stdlib.h>
#include <unistd.h>

typedef unsigned long int flags_t;

static flags_t flags;
static long signed limit = 0X7fL, base = 010;
static short unsigned ports[3][2] = { { 1, 2 }, { 3u, 4 }, };
extern int optind;

static flags_t bit(int n) { return n < 0 || n >= 64 ? 0ul : (flags_t)1 << n; }
static void set(int n) { flags |= bit(n); }
static void clear(int n) { flags &= ~bit(n); }
static int has(int n) { return (flags & bit(n)) != 0; }

static int parity(flags_t f)
{
    int p = 0;
    while (f != 0)
        p ^= f & 1, f >>= 1;
    return p;
}

static long parse(const char *s, long *into)
{
    long v = 0, sign = *s == '-' ? -1 : +1;
    if (sign < 0) ++s;
    for (; *s >= '0' && *s <= '9'; ++s)
        v = v * 10 + *s - '0';
    v *= sign; v %= limit + 1l; v <<= 0;
    return *into = v;
}

int main(int argc, char *const *argv)
{
    long n;
    for (int i = 1; i < argc; i++) {
        switch (argv[i][0]) {
        case '+': set((int)parse(argv[i] + 1, &n)); break;
        case '-': clear((int)parse(1 + argv[i], &n)); break;
        case '\\': case '\x41': case '\102': case '\'':
            base = -base; base += ~0; base -= !base; base /= 2;
        default: printf("%d\n", has(argv[i][0] & 63));
        }
    }
    printf("%lx %d %hu %ld\n", flags, parity(flags), ports[1][0], base);
    return sizeof(flags_t *) == sizeof flags && sizeof (int (*)(void)) ? 0 : 1;
}
