int main(void) {
  int t[4];
  unsigned char i;
  int x = t[i];
  assert(x == t[i]);
}
