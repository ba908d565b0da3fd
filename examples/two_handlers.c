void h(int s) { }
void k(int s) { pause(); abort(); }
int main(void) {
  signal(SIGHUP, h);
  signal(SIGTERM, k);
  rand();
  pause();
  return 0;
}
