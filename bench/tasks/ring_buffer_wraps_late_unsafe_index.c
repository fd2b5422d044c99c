extern void abort(void);
extern int __VERIFIER_nondet_int(void);
extern unsigned char __VERIFIER_nondet_uchar(void);
extern _Bool __VERIFIER_nondet_bool(void);
void reach_error() {}
int main() {
  unsigned char buffer[3];
  unsigned head = 0;
  while (1) {
    buffer/*here*/[head] = __VERIFIER_nondet_uchar();
    head++;
    if (head > 3) head = 0;
  }
}
