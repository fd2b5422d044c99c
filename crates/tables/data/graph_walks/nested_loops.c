// Loops in loops, with locals that begin anew in each round.
extern void abort(void);
void reach_error(void) {}
extern unsigned char __VERIFIER_nondet_uchar(void);
int main(void) {
  int total = 0;
  for (int i = 0; i < 4; i++) {
    int row = i;
    unsigned char width = __VERIFIER_nondet_uchar();
    int j = 0;
    while (j < width % 5) {
      int cell = row * j;
      total += cell;
      j++;
    }
  }
  if (total == 36)
    reach_error();
  return 0;
}
