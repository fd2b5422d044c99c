// for with all its parts, with none, and with a declaration.
extern void abort(void);
void reach_error(void) {}
extern int __VERIFIER_nondet_int(void);
int main(void) {
  int n = __VERIFIER_nondet_int();
  int sum = 0;
  for (int i = 0; i < 5; i++)
    sum += i;
  int j;
  for (j = 10, sum = sum + 1; j > 0; j -= 3, sum++) {
    if (j == n)
      continue;
    sum += j;
  }
  for (;;) {
    if (sum > 60)
      break;
    sum += 9;
  }
  if (sum == 61)
    reach_error();
  return sum;
}
