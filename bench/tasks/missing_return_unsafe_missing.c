extern void abort(void);
extern int __VERIFIER_nondet_int(void);
extern unsigned char __VERIFIER_nondet_uchar(void);
extern _Bool __VERIFIER_nondet_bool(void);
void reach_error() {}
int sign(int x) {
  if (x > 0) return 1;
  if (x < 0) return -1;
}
int main() {
  int s = /*here*/ sign(__VERIFIER_nondet_int());
  if (s > 1) reach_error();
}
