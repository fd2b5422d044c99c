// op= on objects and elements of narrow kinds: computed wide, kept narrow.
extern void abort(void);
void reach_error(void) {}
extern char __VERIFIER_nondet_char(void);
extern unsigned short __VERIFIER_nondet_ushort(void);
extern short __VERIFIER_nondet_short(void);
int main(void) {
  signed char c[3] = {100, -100, 3};
  unsigned short u = __VERIFIER_nondet_ushort();
  short s = __VERIFIER_nondet_short();
  char k = __VERIFIER_nondet_char();
  c[0] += k;
  c[1] -= k;
  c[2] *= 60;
  u += 65000;
  u <<= 3;
  u >>= 2;
  s *= 2;
  s /= 3;
  u %= 1000;
  c[0] ^= 0x55;
  c[1] |= 0x100;
  c[2] &= -2;
  if (c[0] == c[1])
    reach_error();
  if (u == 16 || s == 20)
    reach_error();
  return c[2] + u;
}
