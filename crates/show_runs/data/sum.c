int main(void) {
  int a;
  int b;
  int c = a + b;
  assert(c - b == a);
}
