/* bench/tasks/calls_swapped_bounds_unsafe_reach.c with each event printed by hand */
void reach_error() { SAY("@10:reach_error@: reach: reach_error"); LINE(10, "reach_error"); SAY("UNSAFE reach at @10:reach_error@"); exit(0); }
int least(int a, int b) {
  SAY("@6:a:2@: parameter a = %d", a); SAY("@6:b@: parameter b = %d", b); SAY("@9:least@: call of least");
  int t = a < b;
  SAY("@6:a <@: a < b is %s", TRUTH(t));
  return t ? a : b;
}
int greatest(int a, int b) {
  SAY("@7:a,@: parameter a = %d", a); SAY("@7:b)@: parameter b = %d", b); SAY("@9:greatest@: call of greatest");
  int t = a > b;
  SAY("@7:a >@: a > b is %s", TRUTH(t));
  return t ? a : b;
}
int main() {
  int d = (int)NEXT; SAY("@9:__VERIFIER@: __VERIFIER_nondet_int() gives %d", d);
  int g = greatest(d, 5); SAY("@9:greatest@: greatest returns %d", g);
  int x = least(-5, g); SAY("@9:least@: least returns %d", x);
  SAY("@9:x =@: x = %d", x);
  int t = x != 5; SAY("@10:x !=@: x != 5 is %s", TRUTH(t));
  if (t) reach_error();
  SAY("ENDED");
}
