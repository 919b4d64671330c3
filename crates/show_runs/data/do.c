int main(void) {
  unsigned char n;
  unsigned char turns = 0;
  do {
    n >>= 2;
    turns++;
  } while (n);
  assert(turns >= 1);
  assert(turns < 4);
}
