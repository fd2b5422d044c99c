/* bench/tasks/parking_gate_below_zero_unsafe_index.c with each event printed by hand */
int main() {
  int cars = 1; SAY("@7:cars@: cars = %d", cars);
  int places[10];
  for (int i = 0; i < 10; i++) { places[i] = (int)NEXT; SAY("@8:places@: int places[%d] has no value: %d", i, places[i]); }
  while (1) {
    SAY("@9:1@: 1 is true");
    int event = (int)NEXT; SAY("@10:__VERIFIER@: __VERIFIER_nondet_int() gives %d", event);
    SAY("@10:event@: event = %d", event);
    int first = event == 1; SAY("@11:event@: event == 1 is %s", TRUTH(first));
    int both = first && cars < 10; SAY("@11:event@: event == 1 && cars < 10 is %s", TRUTH(both));
    if (both) {
      places[cars] = 1; SAY("@11:= 1;@: places[%d] = 1", cars);
      cars++; SAY("@11:++@: cars = %d", cars);
    } else {
      int second = event == 2; SAY("@12:event@: event == 2 is %s", TRUTH(second));
      if (second) {
        cars--; SAY("@12:--@: cars = %d", cars);
        if (cars < 0 || cars > 9) {
          SAY("@12:[@: index: places[%d], of 10 elements", cars); LINE(12, "["); SAY("UNSAFE index at @12:[@"); exit(0);
        }
        places[cars] = 0; SAY("@12:= 0;@: places[%d] = 0", cars);
      }
    }
  }
}
