int main(void) {
  int a;
  signed char b;
  __CPROVER_assume(b != -1);
  int r = a % b;
  assert(r == 0 || (r < 0) == (a < 0));
}
