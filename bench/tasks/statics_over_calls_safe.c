extern void abort(void);
extern int __VERIFIER_nondet_int(void);
extern unsigned char __VERIFIER_nondet_uchar(void);
extern _Bool __VERIFIER_nondet_bool(void);
void reach_error() {}
static int calls;
static int limit = 3;
void tick(void) { if (calls < limit) calls++; }
int main() {
  for (int i = 0; i < 5; i++) tick();
  if (calls != 3) reach_error();
}
