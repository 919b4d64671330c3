int main(void) {
  unsigned char a;
  unsigned char b;
  unsigned char c = a;
  c += b;
  c ^= a;
  c -= b;
  c ^= a;
  a++;
  --b;
  assert(a != 0);
  b /= a;
  b %= 3;
  b <<= 1;
  assert(b < 5);
}
