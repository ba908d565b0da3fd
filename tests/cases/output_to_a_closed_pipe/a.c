void h(int s) { abort(); } int main(void) { signal(SIGINT, h); pause(); return 0; }
