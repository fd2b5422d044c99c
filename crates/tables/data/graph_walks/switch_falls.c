// switch with fallthrough, default in the middle, and cases within blocks.
extern void abort(void);
void reach_error(void) {}
extern int __VERIFIER_nondet_int(void);
int main(void) {
  int k = __VERIFIER_nondet_int();
  int r = 0;
  switch (k % 7) {
  case 0:
    r = 1;
  case 1:
    r += 2;
    break;
  default:
    r = 100;
  case 2: {
    r += 4;
    if (k > 50) {
    case 3:
      r += 8;
    }
    break;
  }
  case -1:
    r = 16;
  }
  if (r == 112 || r == 3)
    reach_error();
  return r;
}
