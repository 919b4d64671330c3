int main(void) {
  unsigned a;
  unsigned b;
  unsigned c = a * b - a;
  assert(c == a * (b - 1));
}
