int main(void) {
  unsigned char c;
  __CPROVER_assume(c < 4);
  assert(c < 2);
  assert(c < 4);
}
