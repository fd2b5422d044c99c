// ++ and -- before and behind, on scalars and on elements, with the value used and not.
extern void abort(void);
void reach_error(void) {}
extern unsigned char __VERIFIER_nondet_uchar(void);
int main(void) {
  unsigned char a[4] = {254, 0, 7, 255};
  int i = 0;
  unsigned char n = __VERIFIER_nondet_uchar();
  int s = a[i++]++;
  s += ++a[0];
  s += a[i]--;
  s += --a[i + 2];
  a[2]++;
  --a[2];
  s += i--;
  s += --i;
  if (n < 4)
    s += a[n]++;
  n++;
  if (s == 254 + 0 + 0 + 254 + 1 + -1)
    reach_error();
  if (a[1] != 255 && n != 2)
    reach_error();
  return i;
}
