extern void abort(void);
extern int __VERIFIER_nondet_int(void);
extern unsigned char __VERIFIER_nondet_uchar(void);
extern _Bool __VERIFIER_nondet_bool(void);
void reach_error() {}
int main() {
  int tries = 0;
again:
  tries++;
  if (tries > 4) /*here*/ reach_error();
  if (tries < 5 && __VERIFIER_nondet_bool()) goto again;
}
