//// run: a shift by the width
int main(void) {
  int s = 32;
  int x = 1 << s;
}
//// run: a division by 0
int main(void) {
  int z = 0;
  int x = 1 / z;
}
//// run: the least number divided by -1, behind two other operators that may overflow
int main(void) {
  int m = -2147483647 - 1;
  int q = m / -1;
}
//// run: an index one past the end
int main(void) {
  int t[4];
  int y = t[4];
}
//// run: an assertion, of a function that is called
int square(int n) {
  assert(n != 3);
  return n * n;
}
int main(void) {
  int x = square(2);
  int y = square(3);
}
//// run: it ends
int main(void) {
  int n = 0;
  for (int i = 0; i < 1000; i++) n += i;
  assert(n == 499500);
}
//// run: a turn more than the limit
int main(void) {
  for (int i = 0; i < 1001; i++) { }
}
//// run: 31 activations below main's
int down(int n) {
  int m;
  if (n == 1) return 1;
  m = down(n - 1);
  return m + 1;
}
int main(void) {
  int n = down(31);
  assert(n == 31);
}
//// run: one activation more
int down(int n) {
  int m;
  if (n == 1) return 1;
  m = down(n - 1);
  return m + 1;
}
int main(void) {
  int n = down(32);
}
//// run: an assumption that is 0, before an assertion that is
int main(void) {
  int n = 1;
  __CPROVER_assume(n == 2);
  assert(0);
}
//// run: an edge, and no other
int main(void) {
  next_timeframe();
  next_timeframe();
  assert(0);
}
//// run: what is not set, and what a function without body gives, is 0 here
unsigned char nondet_f(void);
int main(void) {
  int n;
  unsigned char c = nondet_f();
  assert(n == 0);
  assert(c == 0);
}
//// run: 4096 choices
int main(void) {
  int t[4096];
  assert(t[4095] == 0);
}
//// run: a choice more
int main(void) {
  int t[4096];
  int n;
}
//// run: the right operand isn't evaluated
int main(void) {
  int z = 0;
  int n = z != 0 && 1 / z > 0;
  int m = z == 0 || 1 / z > 0;
  assert(n == 0);
  assert(m == 1);
}
//// run: the addition overflows before the conversion
int main(void) {
  signed char a = 127;
  a += 1;
  assert(a == -128);
  int n = 2147483647;
  n += 1;
}
//// run: a comparison of a negative number with an unsigned one
int main(void) {
  int n = -1;
  unsigned u = 1;
  unsigned char c = 255;
  assert(n > u);
  assert(n > c);
}
//// run: a switch falls through
int main(void) {
  int n = 0;
  switch (2) {
  case 1: n += 1;
  case 2: n += 2;
  case 3: n += 4; break;
  default: n += 8;
  }
  assert(n == 6);
}
//// run: a program with a mirror
struct top { int n; };
extern struct top top;
int main(void) { }
