int main(void) {
  int n;
  unsigned char u = n;
  signed char s = n;
  bool t = n;
  assert(u == (unsigned char)s);
  assert(t == (n != 0));
  assert(n < 0u + n + 1);
}
