#include <signal.h>
#include <unistd.h>

void h(int s)
{
    union { int number; char bytes[4]; } u = { s };
    write(1, u.bytes, 4);
}

int main(void) { signal(SIGINT, h); pause(); return 0; }
