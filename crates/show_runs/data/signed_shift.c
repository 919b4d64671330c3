int main(void) {
  short a;
  int b = a << 4;
  int c = b >> 4;
  assert(c == a);
  assert(a >> 8 == a / 256);
}
