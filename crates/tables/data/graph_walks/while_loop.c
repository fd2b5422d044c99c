// A while loop with break and continue.
extern void abort(void);
void reach_error(void) {}
extern int __VERIFIER_nondet_int(void);
int main(void) {
  int n = __VERIFIER_nondet_int();
  int i = 0;
  int odd = 0;
  while (i < n) {
    i++;
    if (i % 2 == 0)
      continue;
    odd++;
    if (i > 20)
      break;
  }
  if (odd > 7 && i < 20)
    reach_error();
  return 0;
}
