extern void abort(void);
extern int __VERIFIER_nondet_int(void);
extern unsigned char __VERIFIER_nondet_uchar(void);
void reach_error() {}
int main() {
  unsigned char left = 0;
  unsigned char right = 0;
  while (__VERIFIER_nondet_int()) {
    unsigned char first = __VERIFIER_nondet_uchar();
    unsigned char second = __VERIFIER_nondet_uchar();
    left = left + first + second;
    right = right + second + first;
  }
  if (left != right) reach_error();
}
