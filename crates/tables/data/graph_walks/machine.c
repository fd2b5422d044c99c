// A state machine in an endless loop, with an array of its counts.
extern void abort(void);
void reach_error(void) {}
extern unsigned char __VERIFIER_nondet_uchar(void);
int main(void) {
  int state = 0;
  unsigned char seen[3] = {0, 0, 0};
  while (1) {
    unsigned char event = __VERIFIER_nondet_uchar();
    seen[state]++;
    switch (state) {
    case 0:
      state = event > 5 ? 1 : 0;
      break;
    case 1:
      state = event == 0 ? 2 : 1;
      break;
    case 2:
      if (event > 250)
        state = 3;
      else
        state = 0;
    }
    if (seen[0] > 40)
      return 0;
  }
}
