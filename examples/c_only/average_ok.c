int a = 2147483647;
int b = 1;
int mean;
int main(void) {
  mean = a / 2 + b / 2 + (a % 2 + b % 2) / 2;
  assert(mean <= a);
}
