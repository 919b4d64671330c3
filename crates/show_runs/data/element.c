int main(void) {
  unsigned char t[4] = { 1, 2, 3 };
  signed char i;
  t[i & 3] = 9;
  assert(t[0] + t[1] + t[2] + t[3] > 12);
  t[i] = 0;
}
