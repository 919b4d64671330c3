int main(void) {
  short a;
  short b;
  int c = a * b;
  assert(c >= 0);
  unsigned short d;
  int e = d * d;
}
