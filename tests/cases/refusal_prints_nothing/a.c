void h(int s) { rand(); } int main(void) { signal(SIGINT, h); pause(); return 0; }
