/* bench/tasks/gain_without_limit_unsafe_overflow.c with each event printed by hand */
int main() {
  int gain = 1; SAY("@7:gain@: gain = %d", gain);
  int i = 0; SAY("@8:i =@: i = %d", i);
  while (1) {
    int t = i < 40; SAY("@8:i <@: i < 40 is %s", TRUTH(t));
    if (!t) break;
    int sum;
    if (__builtin_add_overflow(gain, gain, &sum)) {
      SAY("@8:+ gain@: overflow: %d + %d", gain, gain); LINE(8, "+ gain"); SAY("UNSAFE overflow at @8:+ gain@"); exit(0);
    }
    gain = sum; SAY("@8:= gain@: gain = %d", gain);
    i++; SAY("@8:++@: i = %d", i);
  }
  SAY("ENDED");
}
