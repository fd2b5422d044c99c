extern void abort(void);
void reach_error() {}
int main() {
  int i = 0;
  int j = 0;
  while (i < 100000) {
    i = i + 1;
    j = j + 2;
  }
  if (j != 2 * i) reach_error();
}
