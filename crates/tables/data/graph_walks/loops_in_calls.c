// Loops and labels in functions that are called from loops; nothing that is listed leads on behind them.
extern void abort(void);
void reach_error(void) {}
extern unsigned char __VERIFIER_nondet_uchar(void);
static int digits(unsigned int n) {
  int count = 0;
more:
  count++;
  n = n / 10;
  if (n)
    goto more;
  return count;
}
static unsigned int power(unsigned int base, int times) {
  unsigned int r = 1;
  for (int i = 0; i < times; ++i)
    r *= base;
  return r;
}
int main(void) {
  int longest = 0;
  for (int i = 0; i < 3; i++) {
    unsigned char n = __VERIFIER_nondet_uchar();
    int d = digits(power(n, i + 1));
    if (d > longest)
      longest = d;
  }
  if (longest == 8)
    reach_error();
  do {
    longest--;
  } while (longest > 0);
  return 0;
}
