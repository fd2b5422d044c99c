// switch on wide and on narrow kinds, without a match, and in a loop with continue.
extern void abort(void);
void reach_error(void) {}
extern unsigned long long __VERIFIER_nondet_ulonglong(void);
extern char __VERIFIER_nondet_char(void);
int main(void) {
  unsigned long long w = __VERIFIER_nondet_ulonglong();
  int hits = 0;
  switch (w) {
  case 18446744073709551615u:
    hits = 50;
    break;
  case 3:
    hits = 1;
  }
  for (int i = 0; i < 6; i++) {
    char c = __VERIFIER_nondet_char();
    switch (c) {
    case 'a':
    case 5:
      hits++;
      continue;
    case -128:
      hits += 10;
      break;
    case 7:
      hits += 2;
    }
    hits += 1;
  }
  if (hits > 55)
    reach_error();
  return 0;
}
