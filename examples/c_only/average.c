int a = 2147483647;
int b = 1;
int mean;
int main(void) {
  mean = (a + b) / 2;
  assert(mean <= a);
}
