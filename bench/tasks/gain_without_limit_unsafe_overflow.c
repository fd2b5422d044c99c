extern void abort(void);
extern int __VERIFIER_nondet_int(void);
extern unsigned char __VERIFIER_nondet_uchar(void);
extern _Bool __VERIFIER_nondet_bool(void);
void reach_error() {}
int main() {
  int gain = 1;
  for (int i = 0; i < 40; i++) gain = gain /*here*/ + gain;
}
