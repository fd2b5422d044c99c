extern void abort(void);
extern int __VERIFIER_nondet_int(void);
void reach_error() {}
int main() {
  int state = 0;
  unsigned char ticks = 0;
  while (1) {
    int event = __VERIFIER_nondet_int();
    if (state == 0 && event > 0) state = 1;
    else if (state == 1 && ticks > 3) state = 2;
    else if (state == 2) { state = 0; ticks = 0; }
    ticks = ticks + 1;
    if (state > 2) reach_error();
  }
}
