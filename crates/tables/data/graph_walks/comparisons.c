// All comparisons, of signed and unsigned operands and of mixed ones.
extern void abort(void);
void reach_error(void) {}
extern int __VERIFIER_nondet_int(void);
extern unsigned int __VERIFIER_nondet_uint(void);
extern long __VERIFIER_nondet_long(void);
int main(void) {
  int a = __VERIFIER_nondet_int();
  unsigned int u = __VERIFIER_nondet_uint();
  long w = __VERIFIER_nondet_long();
  int n = (a < 5) + (a > -5) + (a <= 0) + (a >= 0) + (a == 3) + (a != 3);
  int m = (u < 5) + (u > 5) + (u <= 9) + (u >= 4294967295u);
  if (-1 < 1u)
    reach_error();
  if (a < u && a < 0)
    reach_error();
  if (w < u)
    m += 10;
  if (n == 5 && m == 2)
    reach_error();
  return 0;
}
