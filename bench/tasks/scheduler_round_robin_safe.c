extern void abort(void);
extern int __VERIFIER_nondet_int(void);
extern unsigned char __VERIFIER_nondet_uchar(void);
extern _Bool __VERIFIER_nondet_bool(void);
void reach_error() {}
int main() {
  int current = 0;
  int left = 2;
  while (1) {
    if (left == 0 || __VERIFIER_nondet_bool()) {
      current = current == 2 ? 0 : current + 1;
      left = 2;
    } else {
      left--;
    }
    if (current < 0 || current > 2) reach_error();
    if (left < 0 || left > 2) reach_error();
  }
}
