int main(void) {
  unsigned char c;
  for (int i = 0; i < 4; i++) {
    if (c == i) return 0;
    assert(c != 0);
  }
  assert(c > 3);
}
