int main(void) {
  int z;
  int n = z != 0 && 8 / z > 2;
  int m = z == 0 || 8 % z == 0;
  assert(!n || z == 1 || z == 2);
  assert(m || z != 4);
}
