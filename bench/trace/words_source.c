extern unsigned char __VERIFIER_nondet_uchar(void);
extern int __VERIFIER_nondet_int(void);
void reach_error() {}
int total;
enum { RED, BLUE = 3 };
int grade(unsigned char c) {
  int kind = sizeof(total = 7) + (BLUE ? 0 : 1);
  switch (c) {
    case RED: kind = 2; break;
    case 1 + 1: case BLUE: kind -= 1;
    default: kind += 10;
  }
  return kind;
}
void count(int n) {
  int left[3] = { n, 2 };
  do {
    left[1]--;
    for (int i = 0, j = 3; i < j; i += 2) {
      if (i) continue;
      total = total + left[i];
    }
  } while (left[1] || n > 100);
}
int main() {
  unsigned char c;
  count(c);
  int g = (total++, grade(__VERIFIER_nondet_uchar()));
  for (;;) {
    if (g >= 13 && !(total = c)) break;
    g = ~g + __VERIFIER_nondet_int() / (g - 13);
  }
  return 0;
}
