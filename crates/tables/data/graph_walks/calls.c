// Functions that call functions, twice each, with values of several kinds.
extern void abort(void);
void reach_error(void) {}
extern int __VERIFIER_nondet_int(void);
static int least(int a, int b) {
  if (a < b)
    return a;
  return b;
}
static unsigned char low(int v) {
  return v;
}
static int both(int a, int b) {
  return least(a, b) + low(least(b, a));
}
int main(void) {
  int x = __VERIFIER_nondet_int();
  int r = both(x, 300);
  r = both(r, 7) + both(1, 2);
  if (r == 9)
    reach_error();
  return 0;
}
