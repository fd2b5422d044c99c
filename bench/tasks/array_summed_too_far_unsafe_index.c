extern void abort(void);
extern int __VERIFIER_nondet_int(void);
extern unsigned char __VERIFIER_nondet_uchar(void);
extern _Bool __VERIFIER_nondet_bool(void);
void reach_error() {}
int main() {
  int a[6];
  int sum = 0;
  for (int i = 0; i < 6; i++) a[i] = i;
  for (int i = 0; i <= 6; i++) sum += a/*here*/[i];
  if (sum != 15) reach_error();
}
