// and, or, exclusive or, complement and minus in several kinds.
extern void abort(void);
void reach_error(void) {}
extern int __VERIFIER_nondet_int(void);
extern unsigned int __VERIFIER_nondet_uint(void);
extern unsigned char __VERIFIER_nondet_uchar(void);
extern long long __VERIFIER_nondet_longlong(void);
int main(void) {
  int a = __VERIFIER_nondet_int();
  unsigned int u = __VERIFIER_nondet_uint();
  unsigned char c = __VERIFIER_nondet_uchar();
  long long w = __VERIFIER_nondet_longlong();
  if ((a & ~a) != 0 || (a | ~a) != -1 || (a ^ a) != 0)
    reach_error();
  if (~c >= 0)
    reach_error();
  if ((u & 7u) == 5 && (w ^ 1) == 8)
    reach_error();
  if (-u + u != 0)
    reach_error();
  unsigned char d = ~c;
  if (c + d != 255)
    reach_error();
  return (w | a) == -1 ? !a : +c;
}
