// Casts to every kind.
extern void abort(void);
void reach_error(void) {}
extern long long __VERIFIER_nondet_longlong(void);
extern int __VERIFIER_nondet_int(void);
int main(void) {
  long long w = __VERIFIER_nondet_longlong();
  int a = __VERIFIER_nondet_int();
  _Bool t = w;
  int n = (char)w + (signed char)a + (unsigned char)w + (short)w;
  n += (unsigned short)a;
  unsigned int u = (unsigned int)w + (unsigned int)a;
  unsigned long l = (unsigned long)(long)w;
  unsigned long long q = (unsigned long long)a;
  if (t && (int)(unsigned char)a == a && n < 300)
    reach_error();
  if (q + 1 == 0 && u == 5)
    reach_error();
  if ((_Bool)a + (_Bool)256 == 2 && l == 0)
    reach_error();
  return (char)200 == -56 ? 0 : 1;
}
