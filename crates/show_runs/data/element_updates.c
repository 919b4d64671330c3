int main(void) {
  unsigned char t[3] = { 1, 2, 3 };
  unsigned char i;
  __CPROVER_assume(i < 3);
  t[i] += 5;
  t[i]++;
  t[2 - i] <<= 1;
  assert(t[0] + t[1] + t[2] < 20);
}
