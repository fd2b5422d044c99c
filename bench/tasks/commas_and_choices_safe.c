extern void abort(void);
extern int __VERIFIER_nondet_int(void);
extern unsigned char __VERIFIER_nondet_uchar(void);
extern _Bool __VERIFIER_nondet_bool(void);
void reach_error() {}
int main() {
  int x = __VERIFIER_nondet_bool();
  int y = (x = x + 1, x * 2);
  int z = y > 2 ? y - 2 : (y == 2 ? 0 : -1);
  if (z < 0 || z > 2) reach_error();
}
