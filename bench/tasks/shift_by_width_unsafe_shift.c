extern void abort(void);
extern int __VERIFIER_nondet_int(void);
extern unsigned char __VERIFIER_nondet_uchar(void);
extern _Bool __VERIFIER_nondet_bool(void);
void reach_error() {}
int main() {
  int n = __VERIFIER_nondet_int();
  if (n < 0 || n > 32) return 0;
  unsigned mask = 1u /*here*/ << n;
  if (mask == 0) reach_error();
}
