struct s; enum e { A };
typedef struct s;
static struct { int a; };
const volatile int c; int const *volatile const *p; int unsigned long long const u;
typedef int T[sizeof T + 1], U(T), *(*V[3])(U *, T);
extern signed char const signed_char; unsigned char unsigned_char;
int f(), g(void), *i(const void);
void k(void (*)(int), int (*v[2])(void), struct T { int m1; } *, enum U { B, } u1);
int main(void)
{
    ; { } { ; ; }
    struct local { T t; };
    for (struct s *x; ; ) { break; }
    for (static int n = 0; n; ) ;
    for (extern int f(); 0; ) ;
    T t, *v = &t; V w; U *x;
    a: b: goto a;
    if (1) if (0) ; else ; else { goto b; }
    while (0) do ; while (1, 0);
    switch (sizeof(T)) { }
    switch (1) { case 1 ? 2 : 3: case A: default: a1: case 'x': { break; } }
    (T *)0; (int (*)(void))0; sizeof(int *(*)(const int)); sizeof(t)[0]; sizeof t; sizeof sizeof -1; sizeof (t) + 1;
    ((((1)))); (void)(0, 1); -(-1); - -1; !~+1; &*v; *&v; ++*x, --*v; (t)++; t[0]--; v->m.n->o[1](2)(3, 4)++;
    a = b = c ? d : e ? f : g; a ? b, c : d; a || b && c | d ^ e & f == g < h << i + j * k; "a" "b" "c"[0];
    return;
}
