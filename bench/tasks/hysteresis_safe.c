extern void abort(void);
extern int __VERIFIER_nondet_int(void);
extern unsigned char __VERIFIER_nondet_uchar(void);
extern _Bool __VERIFIER_nondet_bool(void);
void reach_error() {}
int main() {
  _Bool heating = 0;
  while (1) {
    int measured = __VERIFIER_nondet_int();
    _Bool was = heating;
    if (measured < 18) heating = 1;
    else if (measured > 22) heating = 0;
    if (measured >= 18 && measured <= 22 && heating != was) reach_error();
  }
}
