// Sums, differences and products that overflow in signed kinds and wrap in unsigned ones.
extern void abort(void);
void reach_error(void) {}
extern int __VERIFIER_nondet_int(void);
extern unsigned int __VERIFIER_nondet_uint(void);
extern long long __VERIFIER_nondet_longlong(void);
int main(void) {
  unsigned int u = __VERIFIER_nondet_uint();
  unsigned int v = u + 4294967295u;
  if (v > u)
    reach_error();
  u = u * u - v;
  int a = __VERIFIER_nondet_int();
  int b = __VERIFIER_nondet_int();
  if (u == 3)
    a = a - b;
  else
    a = a + b;
  long long w = __VERIFIER_nondet_longlong();
  w = w * 3;
  b = b * 7;
  return -a;
}
