extern void abort(void);
extern int __VERIFIER_nondet_int(void);
extern unsigned char __VERIFIER_nondet_uchar(void);
extern _Bool __VERIFIER_nondet_bool(void);
void reach_error() {}
int main() {
  int n = 5;
  int turns = 0;
  do {
    n--;
    turns++;
  } while (n > 0);
  if (turns != 5 || n != 0) reach_error();
}
