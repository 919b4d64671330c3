int n = 7;
int steps;
int main(void) {
  while (n != 1) {
    if (n % 2 == 0)
      n = n / 2;
    else
      n = 3 * n + 1;
    steps = steps + 1;
  }
  assert(steps == 16);
}
