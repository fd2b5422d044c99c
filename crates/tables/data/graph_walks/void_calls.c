// Functions without a value, that leave early, abort, or draw.
extern void abort(void);
void reach_error(void) {}
extern int __VERIFIER_nondet_int(void);
static int count;
static void assume(int holds) {
  if (!holds)
    abort();
}
static void step(void) {
  int d = __VERIFIER_nondet_int();
  if (d < 0)
    return;
  count++;
  if (d > 200)
    count += 2;
}
int main(void) {
  step();
  assume(count >= 1);
  step();
  step();
  if (count == 7)
    reach_error();
  return 0;
}
