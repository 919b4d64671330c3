int main(void) {
  unsigned char a;
  int n = 0;
  if (a < 8) {
    if (a == 0) n = 1; else n = 2;
  } else if (a < 248) {
    n = 3;
  }
  assert(n != 1);
  assert(n != 2);
  assert(n != 3);
}
