int total;
void add(int n) {
  total += n;
}
int twice(int n) {
  int m = n + n;
  return m;
}
int main(void) {
  signed char x;
  add(x);
  int y = twice(x);
  add(y);
  assert(total != 6);
  assert(total <= 300);
}
