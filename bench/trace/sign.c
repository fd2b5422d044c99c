/* bench/tasks/missing_return_unsafe_missing.c with each event printed by hand */
int has;
int sign(int x) {
  SAY("@6:x)@: parameter x = %d", x); SAY("@11:sign@: call of sign");
  int more = x > 0; SAY("@7:x >@: x > 0 is %s", TRUTH(more));
  has = 1;
  if (more) return 1;
  int less = x < 0; SAY("@8:x <@: x < 0 is %s", TRUTH(less));
  if (less) return -1;
  has = 0;
  return 0;
}
int main() {
  int d = (int)NEXT; SAY("@11:__VERIFIER@: __VERIFIER_nondet_int() gives %d", d);
  int s = sign(d);
  if (!has) { SAY("@11:sign@: missing: sign returned no value"); LINE(11, "sign"); SAY("UNSAFE missing at @11:sign@"); exit(0); }
  SAY("@11:sign@: sign returns %d", s);
  SAY("@11:s =@: s = %d", s);
  int t = s > 1; SAY("@12:s >@: s > 1 is %s", TRUTH(t));
  if (t) { SAY("UNSAFE reach at @12:reach@"); exit(0); }
  SAY("ENDED");
}
