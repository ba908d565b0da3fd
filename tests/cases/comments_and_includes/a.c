/* A handler that ends the process at once. */
#include <signal.h>
#include <stdlib.h>
#include <unistd.h>

void h(int s)
{
	abort(); // never returns
}

int main(void)
{
	signal(SIGINT, h);
	pause();
	return 0;
}
