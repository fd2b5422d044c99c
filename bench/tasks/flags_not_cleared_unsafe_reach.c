extern void abort(void);
extern int __VERIFIER_nondet_int(void);
extern unsigned char __VERIFIER_nondet_uchar(void);
extern _Bool __VERIFIER_nondet_bool(void);
void reach_error() {}
enum { READY = 1, BUSY = 2 };
int main() {
  unsigned char f = READY;
  while (1) {
    int event = __VERIFIER_nondet_int();
    if (event == 1 && (f & READY)) f = f | BUSY;
    else if (event == 2 && (f & BUSY)) f = f & ~BUSY;
    if ((f & READY) && (f & BUSY)) /*here*/ reach_error();
  }
}
