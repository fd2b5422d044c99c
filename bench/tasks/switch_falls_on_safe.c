extern void abort(void);
extern int __VERIFIER_nondet_int(void);
extern unsigned char __VERIFIER_nondet_uchar(void);
extern _Bool __VERIFIER_nondet_bool(void);
void reach_error() {}
int main() {
  int state = __VERIFIER_nondet_int();
  int seen = 0;
  switch (state) {
    case 1: seen += 1;
    case 2: seen += 2; break;
    case 3: seen += 4;
    default: seen += 8;
  }
  if (state == 1 && seen != 3) reach_error();
  if (state == 3 && seen != 12) reach_error();
  if (state == 9 && seen != 8) reach_error();
}
