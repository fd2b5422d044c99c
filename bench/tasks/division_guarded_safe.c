extern void abort(void);
extern int __VERIFIER_nondet_int(void);
extern unsigned char __VERIFIER_nondet_uchar(void);
extern _Bool __VERIFIER_nondet_bool(void);
void reach_error() {}
int main() {
  int a = __VERIFIER_nondet_int();
  int b = __VERIFIER_nondet_int();
  if (b == 0 || b == -1) return 0;
  int q = a / b;
  int r = a % b;
  if (b > 1 && r >= b) reach_error();
  if (q == a && b == 1 && r != 0) reach_error();
}
