int main(void) {
  unsigned char n;
  int sum = 0;
  for (unsigned char i = 0; i < n; i++) {
    if (i == 1) continue;
    if (i == 3) break;
    sum += i;
  }
  assert(sum == 0 || sum == 2);
}
