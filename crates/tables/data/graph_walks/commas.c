// Commas, chains of assignments, and assignments within expressions.
extern void abort(void);
void reach_error(void) {}
extern int __VERIFIER_nondet_int(void);
extern short __VERIFIER_nondet_short(void);
int main(void) {
  int a = __VERIFIER_nondet_int();
  short s;
  unsigned char c;
  int b;
  b = c = s = a;
  if (b != c)
    reach_error();
  b = (a = a % 50, s = a + 1, s * 2);
  while ((a = a / 2) != 0, a > 1)
    b++;
  if ((b = b + 1) == 7)
    reach_error();
  return b;
}
