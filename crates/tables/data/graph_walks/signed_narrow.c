// char is signed; narrow kinds are promoted before they are computed with.
extern void abort(void);
void reach_error(void) {}
extern char __VERIFIER_nondet_char(void);
extern unsigned char __VERIFIER_nondet_uchar(void);
extern short __VERIFIER_nondet_short(void);
int main(void) {
  char c = __VERIFIER_nondet_char();
  unsigned char u = __VERIFIER_nondet_uchar();
  short s = __VERIFIER_nondet_short();
  char d = c;
  d = -d;
  if (d == c && c < 0)
    reach_error();
  if (u - 256 >= 0)
    reach_error();
  short t = s + s;
  if (t != s * 2)
    reach_error();
  c++;
  s--;
  u = u << 1;
  if (c == -128 && u == 254)
    reach_error();
  return s > t;
}
