// goto on, back, into a loop, and out of two.
extern void abort(void);
void reach_error(void) {}
extern int __VERIFIER_nondet_int(void);
int main(void) {
  int n = __VERIFIER_nondet_int();
  int turns = 0;
  if (n == 2)
    goto inside;
again:
  turns++;
  if (turns > 9)
    goto out;
  while (turns < 6) {
    turns += 2;
  inside:
    turns++;
    for (int i = 0; i < 3; i++) {
      if (i + turns == n)
        goto out;
    }
  }
  goto again;
out:
  if (turns == 8)
    reach_error();
  return 0;
}
