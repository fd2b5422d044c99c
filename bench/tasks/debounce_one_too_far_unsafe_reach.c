extern void abort(void);
extern int __VERIFIER_nondet_int(void);
extern unsigned char __VERIFIER_nondet_uchar(void);
extern _Bool __VERIFIER_nondet_bool(void);
void reach_error() {}
int main() {
  int count = 0;
  while (1) {
    if (__VERIFIER_nondet_bool()) { if (count <= 3) count++; }
    else if (count > 0) count--;
    if (count > 3) /*here*/ reach_error();
  }
}
