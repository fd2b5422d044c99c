extern void abort(void);
extern int __VERIFIER_nondet_int(void);
extern unsigned char __VERIFIER_nondet_uchar(void);
extern _Bool __VERIFIER_nondet_bool(void);
void reach_error() {}
int least(int a, int b) { return a < b ? a : b; }
int greatest(int a, int b) { return a > b ? a : b; }
int clamp(int x, int low, int high) { return greatest(low, least(x, high)); }
int main() {
  int x = clamp(__VERIFIER_nondet_int(), -5, 5);
  if (x < -5 || x > 5) reach_error();
}
