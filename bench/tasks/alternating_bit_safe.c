extern void abort(void);
extern int __VERIFIER_nondet_int(void);
extern unsigned char __VERIFIER_nondet_uchar(void);
extern _Bool __VERIFIER_nondet_bool(void);
void reach_error() {}
int main() {
  _Bool sent = 0;
  _Bool expected = 0;
  _Bool waiting = 0;
  while (1) {
    if (!waiting) {
      waiting = 1;
    } else if (__VERIFIER_nondet_bool()) {
      if (sent != expected) reach_error();
      expected = !expected;
      sent = !sent;
      waiting = 0;
    }
  }
}
