extern void abort(void);
extern int __VERIFIER_nondet_int(void);
extern unsigned char __VERIFIER_nondet_uchar(void);
extern _Bool __VERIFIER_nondet_bool(void);
void reach_error() {}
int main() {
  unsigned used = __VERIFIER_nondet_uchar();
  unsigned size = 100;
  if (size - used > 100) /*here*/ reach_error();
}
