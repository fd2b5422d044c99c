extern void abort(void);
extern int __VERIFIER_nondet_int(void);
extern unsigned char __VERIFIER_nondet_uchar(void);
extern _Bool __VERIFIER_nondet_bool(void);
void reach_error() {}
int main() {
  long a = __VERIFIER_nondet_int();
  long b = __VERIFIER_nondet_int();
  long sum = a /*here*/ + b;
  if (sum - b != a) reach_error();
}
