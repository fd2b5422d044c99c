// Arrays: indices that may be out of range, reads and writes, and initial values.
extern void abort(void);
void reach_error(void) {}
extern int __VERIFIER_nondet_int(void);
extern unsigned char __VERIFIER_nondet_uchar(void);
int main(void) {
  int a[5] = {1, 2, 3};
  unsigned char b[3];
  int i = __VERIFIER_nondet_int();
  a[1] = a[0] + a[2];
  a[a[1]] = 9;
  b[0] = 250;
  b[1] = a[4] + b[0];
  b[2] = __VERIFIER_nondet_uchar();
  if (i >= 0) {
    a[i] = b[1];
    if (a[i] != 3)
      reach_error();
  }
  return b[i + 1];
}
