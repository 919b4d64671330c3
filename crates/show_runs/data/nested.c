int main(void) {
  unsigned char n;
  int count = 0;
  for (int i = 0; i < 3; i++) {
    for (int j = 0; j < 4; j++) {
      if (j > i) break;
      if (n == 0) continue;
      count++;
    }
    count += 10;
  }
  assert(count == 36);
}
