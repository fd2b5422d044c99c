// Division and remainder of both signs, by zero, and of the least value by minus one.
extern void abort(void);
void reach_error(void) {}
extern int __VERIFIER_nondet_int(void);
extern long __VERIFIER_nondet_long(void);
int main(void) {
  int a = __VERIFIER_nondet_int();
  int b = __VERIFIER_nondet_int();
  int q = a / b;
  int r = a % b;
  if (q * b + r != a)
    reach_error();
  if (-7 / 2 != -3 || -7 % 2 != -1 || 7 / -2 != -3 || 7 % -2 != 1)
    reach_error();
  if (r < 0 && a == -8)
    reach_error();
  long w = __VERIFIER_nondet_long();
  return w / (b - 3) > w % (b + 1);
}
