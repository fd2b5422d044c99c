// The least program.
int main(void) {
}
