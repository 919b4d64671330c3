int main(void) {
  signed char z;
  int n = z == 0 ? 0 : 100 / z;
  int m = z < 0 ? -z : z;
  assert(m < 100);
  assert(n <= 100);
}
