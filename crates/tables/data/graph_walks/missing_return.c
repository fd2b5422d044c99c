// A function that ends without a value: of use in one place, of none in another.
extern void abort(void);
void reach_error(void) {}
extern int __VERIFIER_nondet_int(void);
static int pick(int k) {
  if (k > 5)
    return k - 5;
  if (k == 2)
    return 0;
}
int main(void) {
  int a = __VERIFIER_nondet_int();
  pick(a);
  (void)pick(a);
  int b = __VERIFIER_nondet_int();
  for (int i = 0; i < 2; pick(i), i++)
    b += i;
  return pick(b);
}
