// && and || that leave out their right side, and ! of everything.
extern void abort(void);
void reach_error(void) {}
extern int __VERIFIER_nondet_int(void);
static int calls;
static int tick(int v) {
  calls++;
  return v;
}
int main(void) {
  int a = __VERIFIER_nondet_int();
  int b = __VERIFIER_nondet_int();
  int r = (a > 0 && tick(b)) || tick(a == -1);
  if (a != 0 && 10 / a > 3)
    calls += 10;
  if (!a || !!b)
    r += 2;
  if (calls == 12 && r == 3)
    reach_error();
  if (0 && 1 / 0)
    reach_error();
  return r;
}
