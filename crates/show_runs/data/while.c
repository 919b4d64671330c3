int main(void) {
  unsigned char n;
  unsigned char turns = 0;
  while (n > 0) {
    n--;
    turns++;
  }
  assert(turns < 4);
}
