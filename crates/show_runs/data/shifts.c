int main(void) {
  unsigned a;
  signed char s;
  unsigned left = a << s;
  unsigned right = a >> s;
  assert(s != 0 || left == right);
}
