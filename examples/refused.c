int main() {
  int x = 0;
  x = x++;
}
