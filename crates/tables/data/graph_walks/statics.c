// Objects of the program with and without initial values.
extern void abort(void);
void reach_error(void) {}
extern int __VERIFIER_nondet_int(void);
int first = -7;
static unsigned short second = 65535;
static long long third;
int table[4] = {3, 1};
static int state = 10;
static int next(void) {
  state = state + first;
  return state;
}
int main(void) {
  int n = __VERIFIER_nondet_int();
  table[2] = next();
  if (n > 0)
    table[3] = next() + second;
  third = third + table[0] + table[1] + table[2];
  if (third == 7 && table[3] == 0)
    reach_error();
  second++;
  if (second != 0)
    reach_error();
  return 0;
}
