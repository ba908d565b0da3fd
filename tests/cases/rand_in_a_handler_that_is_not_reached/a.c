void h(int s) { rand(); } int main(void) { abort(); signal(SIGINT, h); pause(); return 0; }
