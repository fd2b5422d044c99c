// ?: with sides of different kinds, within one another, and with effects.
extern void abort(void);
void reach_error(void) {}
extern int __VERIFIER_nondet_int(void);
extern unsigned int __VERIFIER_nondet_uint(void);
int main(void) {
  int a = __VERIFIER_nondet_int();
  unsigned int u = __VERIFIER_nondet_uint();
  int n = 0;
  long long w = a > 0 ? a : u;
  n = a < 0 ? n - 1 : a == 0 ? n : n + 1;
  (a > 5 ? n++ : n--);
  if (w < 0)
    reach_error();
  if ((a > 100 ? -1 : 0u) > 5)
    reach_error();
  return n == 2 ? a / n : 0;
}
