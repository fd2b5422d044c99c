extern void abort(void);
extern int __VERIFIER_nondet_int(void);
extern unsigned char __VERIFIER_nondet_uchar(void);
extern _Bool __VERIFIER_nondet_bool(void);
void reach_error() {}
int main() {
  unsigned char buffer[8];
  unsigned head = 0;
  unsigned tail = 0;
  unsigned count = 0;
  while (1) {
    if (__VERIFIER_nondet_bool()) {
      if (count < 8) { buffer[head] = __VERIFIER_nondet_uchar(); head = (head + 1) & 7; count++; }
    } else if (count > 0) {
      if (buffer[tail] > 255) reach_error();
      tail = (tail + 1) & 7;
      count--;
    }
    if (count > 8) reach_error();
  }
}
