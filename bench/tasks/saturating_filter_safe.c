extern void abort(void);
extern int __VERIFIER_nondet_int(void);
extern unsigned char __VERIFIER_nondet_uchar(void);
extern _Bool __VERIFIER_nondet_bool(void);
void reach_error() {}
int main() {
  int level = 0;
  while (1) {
    unsigned char sample = __VERIFIER_nondet_uchar();
    int next = level + sample - 128;
    if (next > 1000) next = 1000;
    if (next < -1000) next = -1000;
    level = next;
    if (level > 1000 || level < -1000) reach_error();
  }
}
