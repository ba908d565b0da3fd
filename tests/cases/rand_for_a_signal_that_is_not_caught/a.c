void h(int s) { rand(); } int main(void) { signal(SIGKILL, h); pause(); return 0; }
