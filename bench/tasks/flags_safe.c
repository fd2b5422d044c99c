extern void abort(void);
extern int __VERIFIER_nondet_int(void);
extern unsigned char __VERIFIER_nondet_uchar(void);
extern _Bool __VERIFIER_nondet_bool(void);
void reach_error() {}
enum { READY = 1, BUSY = 2, FAILED = 4 };
typedef unsigned char flags;
int main() {
  flags f = READY;
  while (1) {
    int event = __VERIFIER_nondet_int();
    if (event == 1 && (f & READY)) f = (f & ~READY) | BUSY;
    else if (event == 2 && (f & BUSY)) f = (f & ~BUSY) | READY;
    else if (event == 3) f = f | FAILED;
    if ((f & READY) && (f & BUSY)) reach_error();
  }
}
