void h(int s) { getpid(); } int main(void) { signal(SIGINT, h); pause(); return 0; }
