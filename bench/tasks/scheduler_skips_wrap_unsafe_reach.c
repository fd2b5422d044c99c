extern void abort(void);
extern int __VERIFIER_nondet_int(void);
extern unsigned char __VERIFIER_nondet_uchar(void);
extern _Bool __VERIFIER_nondet_bool(void);
void reach_error() {}
int main() {
  int current = 0;
  while (1) {
    if (__VERIFIER_nondet_bool()) current = current + 1;
    else if (current >= 2) current = 0;
    if (current > 4) /*here*/ reach_error();
  }
}
