unsigned down(unsigned n) {
  if (n == 0) return 0;
  unsigned below = down(n - 1);
  return below + n;
}
int main(void) {
  unsigned char n;
  unsigned sum = down(n & 7);
  assert(sum != 3);
}
