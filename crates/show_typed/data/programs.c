//// program: a loop, an edge and an assertion
struct counter { unsigned char count; };
extern struct counter counter;
int main(void) {
  int n = 0;
  while (n < 3) {
    next_timeframe();
    n++;
  }
  assert(counter.count == n);
  return 0;
}
//// program: conversions, checks and a call
static const unsigned char table[3] = { 1, 2 };
static long scaled(int index, unsigned char by) {
  return table[index] * by << 2;
}
int main(void) {
  unsigned short low;
  long n = scaled(low / 7, 300);
  low += n % 10;
  return n > 0 ? low : -1;
}
//// program: a switch and a for
int main(void) {
  int sum = 0;
  for (int i = 0; i < 4; i++) {
    switch (i) {
    case 0:
      continue;
    case 1:
    case 2:
      sum += i;
      break;
    default:
      sum = ~sum;
    }
  }
  return sum;
}
