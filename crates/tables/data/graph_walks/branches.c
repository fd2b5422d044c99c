// if with and without else, and an else that belongs to the nearest if.
extern void abort(void);
void reach_error(void) {}
extern int __VERIFIER_nondet_int(void);
int main(void) {
  int a = __VERIFIER_nondet_int();
  int b = __VERIFIER_nondet_int();
  int r = 0;
  if (a > 3)
    if (b > 3)
      r = 1;
    else
      r = 2;
  if (a == b) {
    r = r + 4;
  } else {
    r = r + 8;
  }
  if (r == 5)
    reach_error();
  return r;
}
