/* bench/trace/words_source.c with each event printed by hand */
int total;
int grade(unsigned char c) {
  SAY("@6:c)@: parameter c = %d", c); SAY("@28:grade@: call of grade");
  SAY("@7:BLUE@: BLUE is true");
  int kind = 4 + 0; SAY("@7:kind@: kind = %d", kind);
  switch (c) {
    case 0: SAY("@9:case@: case 0"); kind = 2; SAY("@9:= 2@: kind = %d", kind); break;
    case 2: SAY("@10:case@: case 2"); goto three_on;
    case 3: SAY("@10:case B@: case 3");
    three_on: kind -= 1; SAY("@10:-=@: kind = %d", kind);
    default: kind += 10; SAY("@11:+=@: kind = %d", kind);
  }
  return kind;
}
void count(int n) {
  SAY("@15:n)@: parameter n = %d", n); SAY("@27:count@: call of count");
  int left[3] = { n, 2 };
  for (int k = 0; k < 3; k++) SAY("@16:left@: left[%d] = %d", k, left[k]);
  int again;
  do {
    left[1]--; SAY("@18:--@: left[1] = %d", left[1]);
    int i = 0, j = 3; SAY("@19:i =@: i = %d", i); SAY("@19:j =@: j = %d", j);
    while (1) {
      SAY("@19:i <@: i < j is %s", TRUTH(i < j));
      if (!(i < j)) break;
      SAY("@20:i)@: i is %s", TRUTH(i));
      if (!i) { total = total + left[i]; SAY("@21:= total@: total = %d", total); }
      i += 2; SAY("@19:+=@: i = %d", i);
    }
    SAY("@23:left@: left[1] is %s", TRUTH(left[1]));
    again = left[1] || n > 100;
    SAY("@23:left@: left[1] || n > 100 is %s", TRUTH(again));
  } while (again);
}
int main() {
  unsigned char c = (unsigned char)NEXT; SAY("@26:c;@: unsigned char c has no value: %d", c);
  count(c); SAY("@27:count@: count returns");
  total++; SAY("@28:++@: total = %d", total);
  unsigned char d = (unsigned char)NEXT; SAY("@28:__VERIFIER@: __VERIFIER_nondet_uchar() gives %d", d);
  int g = grade(d); SAY("@28:grade@: grade returns %d", g);
  SAY("@28:g =@: g = %d", g);
  while (1) {
    SAY("@29:;)@: the loop has no condition");
    int high = g >= 13; SAY("@30:g >=@: g >= 13 is %s", TRUTH(high));
    int whole = 0;
    if (high) { total = c; SAY("@30:= c@: total = %d", total); whole = !total; }
    SAY("@30:g >=@: g >= 13 && !(total = c) is %s", TRUTH(whole));
    if (whole) break;
    int e = (int)NEXT; SAY("@31:__VERIFIER@: __VERIFIER_nondet_int() gives %d", e);
    if (g - 13 == 0) { SAY("@31:/@: zero: %d / %d", e, g - 13); LINE(31, "/"); SAY("UNSAFE zero at @31:/@"); exit(0); }
    int q = e / (g - 13);
    g = ~g + q; SAY("@31:= ~@: g = %d", g);
  }
  SAY("ENDED");
}
