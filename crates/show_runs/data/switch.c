int main(void) {
  unsigned char c;
  int n = 0;
  switch (c & 3) {
  case 0: n += 1;
  case 1: n += 2; break;
  case 2: n += 4;
  default: n += 8;
  }
  assert(n != 3);
  assert(n != 2);
  assert(n != 12);
  assert(n != 8);
}
