extern void abort(void);
extern int __VERIFIER_nondet_int(void);
void reach_error() {}
int main() {
  int locked = 0;
  int opened = 0;
  while (__VERIFIER_nondet_int()) {
    if (locked) { locked = 0; opened = 1; }
    else { locked = 1; opened = 0; }
  }
  if (locked && opened) reach_error();
}
