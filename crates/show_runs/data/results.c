int rows[4];
int next(int a, int b) {
  int c = a - b;
  if (c < 0) return -c;
  return c;
}
int open(void) {
  int nothing = 3;
  if (nothing < 3) return 1;
}
int main(void) {
  signed char x;
  unsigned char i;
  rows[i & 7] = next(x, 3);
  int k = open();
  rows[1] = k;
  assert(rows[0] != 2);
  assert(rows[1] != 0);
  return next(x, k & 255);
}
