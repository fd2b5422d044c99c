extern void abort(void);
extern int __VERIFIER_nondet_int(void);
extern unsigned char __VERIFIER_nondet_uchar(void);
extern _Bool __VERIFIER_nondet_bool(void);
void reach_error() {}
int main() {
  int left = 10;
  while (left > 0) {
    left--;
    if (__VERIFIER_nondet_bool()) left = 10;
    if (left < 0 || left > 10) reach_error();
  }
}
