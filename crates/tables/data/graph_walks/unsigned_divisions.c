// Division and remainder of unsigned kinds.
extern void abort(void);
void reach_error(void) {}
extern unsigned int __VERIFIER_nondet_uint(void);
extern unsigned long __VERIFIER_nondet_ulong(void);
extern unsigned char __VERIFIER_nondet_uchar(void);
int main(void) {
  unsigned int a = __VERIFIER_nondet_uint();
  unsigned int b = __VERIFIER_nondet_uint();
  unsigned long w = __VERIFIER_nondet_ulong();
  unsigned char c = __VERIFIER_nondet_uchar();
  unsigned int q = a / b;
  if (q > 4000000000u)
    reach_error();
  if (a % (c + 1) == 3 && w / 7 == 1)
    reach_error();
  return w % c;
}
