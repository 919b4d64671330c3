int main(void) {
  unsigned char a;
  unsigned char b;
  assert((a & b) + (a | b) == a + b);
  assert((a ^ b) == (a | b) - (a & b));
  assert(~a == -a - 1);
}
