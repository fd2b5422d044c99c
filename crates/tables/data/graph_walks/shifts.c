// Shifts of signed and unsigned kinds: amounts out of range, negative left sides, bits that get lost.
extern void abort(void);
void reach_error(void) {}
extern int __VERIFIER_nondet_int(void);
extern unsigned int __VERIFIER_nondet_uint(void);
extern long long __VERIFIER_nondet_longlong(void);
extern unsigned char __VERIFIER_nondet_uchar(void);
int main(void) {
  int k = __VERIFIER_nondet_uchar() % 36;
  unsigned int u = __VERIFIER_nondet_uint();
  long long w = __VERIFIER_nondet_longlong();
  int right = -9 >> 1;
  if (right != -5)
    reach_error();
  if (k < 20 && 1 << k == 4096)
    reach_error();
  unsigned int x = u << k;
  if (x >> k != u && u == 4294967295u)
    reach_error();
  int r = w >> k;
  int left = __VERIFIER_nondet_int();
  return (left << 2) + r;
}
