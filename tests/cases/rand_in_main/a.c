void h(int s) { } int main(void) { signal(SIGHUP, h); rand(); return 0; }
