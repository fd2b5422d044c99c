extern void abort(void);
extern int __VERIFIER_nondet_int(void);
extern _Bool __VERIFIER_nondet_bool(void);
void reach_error() {}
int main() {
  unsigned char ones = 0;
  unsigned char drawn = 0;
  while (__VERIFIER_nondet_int() && drawn < 200) {
    ones = ones + __VERIFIER_nondet_bool();
    drawn = drawn + 1;
  }
  if (ones > drawn) reach_error();
}
