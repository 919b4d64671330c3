int main(void) {
  signed char a;
  signed char b;
  signed char c = a - b;
  assert(c == a - b);
}
