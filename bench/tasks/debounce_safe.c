extern void abort(void);
extern int __VERIFIER_nondet_int(void);
extern unsigned char __VERIFIER_nondet_uchar(void);
extern _Bool __VERIFIER_nondet_bool(void);
void reach_error() {}
int main() {
  int count = 0;
  int output = 0;
  while (1) {
    if (__VERIFIER_nondet_bool()) { if (count < 3) count++; }
    else if (count > 0) count--;
    if (count == 3) output = 1;
    if (count == 0) output = 0;
    if (count < 0 || count > 3) reach_error();
    if (output != 0 && output != 1) reach_error();
  }
}
