extern void abort(void);
extern int __VERIFIER_nondet_int(void);
extern unsigned char __VERIFIER_nondet_uchar(void);
extern _Bool __VERIFIER_nondet_bool(void);
void reach_error() {}
int main() {
  int cars = 1;
  int places[10];
  while (1) {
    int event = __VERIFIER_nondet_int();
    if (event == 1 && cars < 10) { places[cars] = 1; cars++; }
    else if (event == 2) { cars--; places/*here*/[cars] = 0; }
  }
}
