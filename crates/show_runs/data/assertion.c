int main(void) {
  unsigned char c;
  assert(c != 0);
}
