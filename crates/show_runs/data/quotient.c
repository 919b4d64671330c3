int main(void) {
  long m = -9223372036854775807l - 1;
  signed char b;
  long q = m / b;
  assert(q != 0);
}
