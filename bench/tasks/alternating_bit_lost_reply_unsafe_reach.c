extern void abort(void);
extern int __VERIFIER_nondet_int(void);
extern unsigned char __VERIFIER_nondet_uchar(void);
extern _Bool __VERIFIER_nondet_bool(void);
void reach_error() {}
int main() {
  _Bool sent = 0;
  _Bool expected = 0;
  while (1) {
    if (__VERIFIER_nondet_bool()) {
      if (sent != expected) /*here*/ reach_error();
      expected = !expected;
    }
    if (__VERIFIER_nondet_bool()) sent = !sent;
  }
}
