// A do loop, whose body runs once at least; continue goes to its condition.
extern void abort(void);
void reach_error(void) {}
extern unsigned char __VERIFIER_nondet_uchar(void);
int main(void) {
  unsigned char n = __VERIFIER_nondet_uchar();
  int rounds = 0;
  do {
    rounds++;
    n = n / 2;
    if (n == 3)
      continue;
    if (n == 100)
      break;
  } while (n > 0);
  if (rounds == 7)
    reach_error();
  return rounds;
}
