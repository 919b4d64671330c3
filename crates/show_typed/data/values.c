//// run: expressions, updates and small programs, with the values that gcc gives; the last assertion is false
#include <assert.h>
#include <stdbool.h>
#include <stdint.h>
static int gcd(int a, int b) {
  while (b != 0) {
    int r = a % b;
    a = b;
    b = r;
  }
  return a;
}
static unsigned bits(unsigned n) {
  unsigned count = 0;
  for (; n != 0; n &= n - 1)
    count++;
  return count;
}
static int fib(int n) {
  int a = 0;
  int b = 1;
  do {
    int c = a + b;
    a = b;
    b = c;
    n--;
  } while (n > 0);
  return a;
}
static long factorial(int n) {
  long rest;
  if (n < 2)
    return 1;
  rest = factorial(n - 1);
  return n * rest;
}
static uint8_t crc(uint8_t byte) {
  uint8_t c = byte;
  for (int i = 0; i < 8; i++)
    c = c & 0x80 ? (c << 1) ^ 0x07 : c << 1;
  return c;
}
static int days(int month) {
  switch (month) {
  case 2:
    return 28;
  case 4: case 6: case 9: case 11:
    return 30;
  default:
    return 31;
  }
}
static int falls(int n) {
  int sum = 0;
  switch (n) {
  case 1:
    sum += 1;
  case 2:
    sum += 10;
    break;
  case 3:
    sum += 100;
  default:
    sum += 1000;
  }
  return sum;
}
static int primes(int below) {
  bool out[50] = { true, true };
  int count = 0;
  for (int i = 2; i < below; i++) {
    if (out[i])
      continue;
    count++;
    for (int k = i * i; k < below; k += i)
      out[k] = true;
  }
  return count;
}
static int sorted(int k) {
  int t[6] = { 5, -3, 12, 0, 7, 1 };
  for (int i = 0; i < 6; i++)
    for (int j = 0; j + 1 < 6 - i; j++)
      if (t[j] > t[j + 1]) {
        int old = t[j];
        t[j] = t[j + 1];
        t[j + 1] = old;
      }
  return t[k];
}
static unsigned root(unsigned n) {
  unsigned r = 0;
  while (true) {
    if ((r + 1) * (r + 1) > n)
      break;
    r++;
  }
  return r;
}
static int steps(unsigned long n) {
  int k = 0;
  for (; n != 1; k++)
    n = n % 2 == 0 ? n / 2 : 3 * n + 1;
  return k;
}
static uint16_t lfsr(uint16_t s, int n) {
  for (; n > 0; n--)
    s = (s >> 1) ^ (s & 1 ? 0xb400u : 0u);
  return s;
}
static int total;
static void add(int n) {
  total += n;
}
static int shadows(int n) {
  {
    int n = 3;
    add(n);
  }
  add(n);
  return total;
}
static int8_t wraps(int n) {
  return n;
}
int main(void) {
  { int8_t a = 63; int b = 1; assert((a + b) == 64); assert((a + b) * 0 - 1 < 0); }
  { short a = (-32767); bool b = 0; assert((a + b) == (-32767)); assert((a + b) * 0 - 1 < 0); }
  { unsigned char a = 0; uint8_t b = 0; assert((a + b) == 0); assert((a + b) * 0 - 1 < 0); }
  { bool a = 0; int16_t b = (-32768); assert((a + b) == (-32768)); assert((a + b) * 0 - 1 < 0); }
  { int8_t a = (-127); unsigned short b = 15304; assert((a + b) == 15177); assert((a + b) * 0 - 1 < 0); }
  { unsigned long a = 9ul; unsigned char b = 1; assert((a + b) == 10ul); assert((a + b) * 0 - 1 > 0); }
  { short a = 16383; long b = 4611686018427387903l; assert((a + b) == 4611686018427404286l); assert((a + b) * 0 - 1 < 0); }
  { int16_t a = (-32768); unsigned short b = 0; assert((a + b) == (-32768)); assert((a + b) * 0 - 1 < 0); }
  { char a = (-1); short b = (-19); assert((a + b) == (-20)); assert((a + b) * 0 - 1 < 0); }
  { unsigned short a = 1; short b = (-1); assert((a - b) == 2); assert((a - b) * 0 - 1 < 0); }
  { int a = (-1); uint8_t b = 0; assert((a - b) == (-1)); assert((a - b) * 0 - 1 < 0); }
  { long a = (-1l); unsigned b = 0u; assert((a - b) == (-1l)); assert((a - b) * 0 - 1 < 0); }
  { uint16_t a = 35364; int b = 12; assert((a - b) == 35352); assert((a - b) * 0 - 1 < 0); }
  { unsigned char a = 14; short b = (-32768); assert((a - b) == 32782); assert((a - b) * 0 - 1 < 0); }
  { short a = 1; unsigned b = 18u; assert((a - b) == 4294967279u); assert((a - b) * 0 - 1 > 0); }
  { unsigned char a = 127; long b = (-1l); assert((a - b) == 128l); assert((a - b) * 0 - 1 < 0); }
  { uint16_t a = 0; int16_t b = 1; assert((a - b) == (-1)); assert((a - b) * 0 - 1 < 0); }
  { unsigned a = 15u; unsigned long b = 3ul; assert((a - b) == 12ul); assert((a - b) * 0 - 1 > 0); }
  { uint16_t a = 65535; bool b = 0; assert((a * b) == 0); assert((a * b) * 0 - 1 < 0); }
  { long a = 2l; unsigned long b = 14270336769130149717ul; assert((a * b) == 10093929464550747818ul); assert((a * b) * 0 - 1 > 0); }
  { char a = 127; uint8_t b = 13; assert((a * b) == 1651); assert((a * b) * 0 - 1 < 0); }
  { int16_t a = (-32768); unsigned b = 5u; assert((a * b) == 4294803456u); assert((a * b) * 0 - 1 > 0); }
  { short a = (-1); unsigned long b = 20ul; assert((a * b) == 18446744073709551596ul); assert((a * b) * 0 - 1 > 0); }
  { bool a = 1; uint16_t b = 0; assert((a * b) == 0); assert((a * b) * 0 - 1 < 0); }
  { unsigned a = 0u; unsigned b = 0u; assert((a * b) == 0u); assert((a * b) * 0 - 1 > 0); }
  { unsigned char a = 1; bool b = 1; assert((a * b) == 1); assert((a * b) * 0 - 1 < 0); }
  { uint8_t a = 0; unsigned char b = 10; assert((a / b) == 0); assert((a / b) * 0 - 1 < 0); }
  { int16_t a = 0; unsigned short b = 1806; assert((a / b) == 0); assert((a / b) * 0 - 1 < 0); }
  { bool a = 0; unsigned long b = 7ul; assert((a / b) == 0ul); assert((a / b) * 0 - 1 > 0); }
  { unsigned a = 1u; long b = (-1l); assert((a / b) == (-1l)); assert((a / b) * 0 - 1 < 0); }
  { bool a = 1; unsigned long b = 1ul; assert((a / b) == 1ul); assert((a / b) * 0 - 1 > 0); }
  { char a = (-127); int b = 2147483647; assert((a / b) == 0); assert((a / b) * 0 - 1 < 0); }
  { char a = (-85); unsigned char b = 15; assert((a / b) == (-5)); assert((a / b) * 0 - 1 < 0); }
  { int8_t a = 127; int8_t b = 63; assert((a % b) == 1); assert((a % b) * 0 - 1 < 0); }
  { int a = (-1); int8_t b = (-1); assert((a % b) == 0); assert((a % b) * 0 - 1 < 0); }
  { int8_t a = 1; unsigned long b = 9223372036854775807ul; assert((a % b) == 1ul); assert((a % b) * 0 - 1 > 0); }
  { int16_t a = 32767; int8_t b = 63; assert((a % b) == 7); assert((a % b) * 0 - 1 < 0); }
  { int8_t a = (-2); char b = 63; assert((a % b) == (-2)); assert((a % b) * 0 - 1 < 0); }
  { bool a = 0; char b = (-19); assert((a % b) == 0); assert((a % b) * 0 - 1 < 0); }
  { char a = 1; int b = (-2147483647 - 1); assert((a % b) == 1); assert((a % b) * 0 - 1 < 0); }
  { int8_t a = 79; uint8_t b = 9; assert((a % b) == 7); assert((a % b) * 0 - 1 < 0); }
  { uint8_t a = 0; unsigned long b = 7035529450435145526ul; assert((a & b) == 0ul); assert((a & b) * 0 - 1 > 0); }
  { uint8_t a = 20; long b = (-1l); assert((a & b) == 20l); assert((a & b) * 0 - 1 < 0); }
  { int a = 0; unsigned char b = 0; assert((a & b) == 0); assert((a & b) * 0 - 1 < 0); }
  { int16_t a = 11; long b = 4611686018427387903l; assert((a & b) == 11l); assert((a & b) * 0 - 1 < 0); }
  { long a = (-1l); uint8_t b = 127; assert((a & b) == 127l); assert((a & b) * 0 - 1 < 0); }
  { char a = 1; short b = (-32768); assert((a & b) == 0); assert((a & b) * 0 - 1 < 0); }
  { int a = 0; uint16_t b = 1; assert((a & b) == 0); assert((a & b) * 0 - 1 < 0); }
  { uint8_t a = 20; int16_t b = 19592; assert((a & b) == 0); assert((a & b) * 0 - 1 < 0); }
  { int8_t a = (-1); int16_t b = (-32767); assert((a & b) == (-32767)); assert((a & b) * 0 - 1 < 0); }
  { long a = (-9223372036854775807l - 1); bool b = 0; assert((a | b) == (-9223372036854775807l - 1)); assert((a | b) * 0 - 1 < 0); }
  { unsigned a = 1u; int b = 0; assert((a | b) == 1u); assert((a | b) * 0 - 1 > 0); }
  { short a = 1; int16_t b = 2; assert((a | b) == 3); assert((a | b) * 0 - 1 < 0); }
  { int16_t a = 32767; char b = (-128); assert((a | b) == (-1)); assert((a | b) * 0 - 1 < 0); }
  { int8_t a = (-121); unsigned short b = 1; assert((a | b) == (-121)); assert((a | b) * 0 - 1 < 0); }
  { char a = 104; long b = 1l; assert((a | b) == 105l); assert((a | b) * 0 - 1 < 0); }
  { int8_t a = (-1); int8_t b = 127; assert((a | b) == (-1)); assert((a | b) * 0 - 1 < 0); }
  { int16_t a = 0; short b = (-32768); assert((a | b) == (-32768)); assert((a | b) * 0 - 1 < 0); }
  { bool a = 0; int b = 10; assert((a | b) == 10); assert((a | b) * 0 - 1 < 0); }
  { char a = (-127); unsigned b = 4294967295u; assert((a ^ b) == 126u); assert((a ^ b) * 0 - 1 > 0); }
  { bool a = 0; long b = (-13l); assert((a ^ b) == (-13l)); assert((a ^ b) * 0 - 1 < 0); }
  { char a = (-128); unsigned b = 2147483647u; assert((a ^ b) == 2147483775u); assert((a ^ b) * 0 - 1 > 0); }
  { uint16_t a = 0; unsigned char b = 37; assert((a ^ b) == 37); assert((a ^ b) * 0 - 1 < 0); }
  { unsigned short a = 32767; int b = (-1241849684); assert((a ^ b) == (-1241866413)); assert((a ^ b) * 0 - 1 < 0); }
  { int a = 1602381810; unsigned b = 3u; assert((a ^ b) == 1602381809u); assert((a ^ b) * 0 - 1 > 0); }
  { int16_t a = 32767; uint16_t b = 35436; assert((a ^ b) == 62867); assert((a ^ b) * 0 - 1 < 0); }
  { unsigned a = 1441166458u; uint16_t b = 2; assert((a ^ b) == 1441166456u); assert((a ^ b) * 0 - 1 > 0); }
  { char a = 63; int16_t b = (-1); assert((a ^ b) == (-64)); assert((a ^ b) * 0 - 1 < 0); }
  { unsigned short a = 2687; uint8_t b = 1; assert((a << b) == 5374); assert((a << b) * 0 - 1 < 0); }
  { int8_t a = 127; int8_t b = 3; assert((a << b) == 1016); assert((a << b) * 0 - 1 < 0); }
  { uint8_t a = 255; unsigned long b = 3ul; assert((a << b) == 2040); assert((a << b) * 0 - 1 < 0); }
  { char a = 16; unsigned b = 1u; assert((a << b) == 32); assert((a << b) * 0 - 1 < 0); }
  { char a = 10; uint8_t b = 1; assert((a << b) == 20); assert((a << b) * 0 - 1 < 0); }
  { int8_t a = 1; int b = 3; assert((a << b) == 8); assert((a << b) * 0 - 1 < 0); }
  { int8_t a = (-127); unsigned long b = 3ul; assert((a >> b) == (-16)); assert((a >> b) * 0 - 1 < 0); }
  { int8_t a = (-128); int16_t b = 1; assert((a >> b) == (-64)); assert((a >> b) * 0 - 1 < 0); }
  { unsigned short a = 63039; char b = 15; assert((a >> b) == 1); assert((a >> b) * 0 - 1 < 0); }
  { int a = (-1); unsigned short b = 3; assert((a >> b) == (-1)); assert((a >> b) * 0 - 1 < 0); }
  { int8_t a = (-128); int8_t b = 0; assert((a >> b) == (-128)); assert((a >> b) * 0 - 1 < 0); }
  { unsigned short a = 16; unsigned char b = 7; assert((a >> b) == 0); assert((a >> b) * 0 - 1 < 0); }
  { int8_t a = 15; int8_t b = 1; assert((a >> b) == 7); assert((a >> b) * 0 - 1 < 0); }
  { int8_t a = 63; unsigned b = 4294967295u; assert((a == b) == 0); assert((a == b) * 0 - 1 < 0); }
  { long a = 4611686018427387903l; unsigned b = 1822723306u; assert((a == b) == 0); assert((a == b) * 0 - 1 < 0); }
  { short a = 3; unsigned b = 2622035865u; assert((a == b) == 0); assert((a == b) * 0 - 1 < 0); }
  { int8_t a = 0; uint16_t b = 12418; assert((a == b) == 0); assert((a == b) * 0 - 1 < 0); }
  { unsigned a = 19u; short b = 32767; assert((a == b) == 0); assert((a == b) * 0 - 1 < 0); }
  { bool a = 0; unsigned short b = 12; assert((a == b) == 0); assert((a == b) * 0 - 1 < 0); }
  { int16_t a = 0; int8_t b = 0; assert((a == b) == 1); assert((a == b) * 0 - 1 < 0); }
  { char a = 2; int16_t b = 32767; assert((a == b) == 0); assert((a == b) * 0 - 1 < 0); }
  { uint16_t a = 32767; unsigned short b = 65535; assert((a == b) == 0); assert((a == b) * 0 - 1 < 0); }
  { unsigned a = 16u; short b = 32767; assert((a != b) == 1); assert((a != b) * 0 - 1 < 0); }
  { unsigned short a = 32767; bool b = 0; assert((a != b) == 1); assert((a != b) * 0 - 1 < 0); }
  { uint16_t a = 0; unsigned short b = 13; assert((a != b) == 1); assert((a != b) * 0 - 1 < 0); }
  { short a = (-1); unsigned b = 2497477433u; assert((a != b) == 1); assert((a != b) * 0 - 1 < 0); }
  { int16_t a = (-26808); char b = 63; assert((a != b) == 1); assert((a != b) * 0 - 1 < 0); }
  { bool a = 0; char b = (-128); assert((a != b) == 1); assert((a != b) * 0 - 1 < 0); }
  { unsigned short a = 2; uint8_t b = 15; assert((a != b) == 1); assert((a != b) * 0 - 1 < 0); }
  { long a = 8890483023847953130l; unsigned short b = 53904; assert((a != b) == 1); assert((a != b) * 0 - 1 < 0); }
  { bool a = 1; unsigned char b = 0; assert((a != b) == 1); assert((a != b) * 0 - 1 < 0); }
  { unsigned a = 0u; bool b = 1; assert((a < b) == 1); assert((a < b) * 0 - 1 < 0); }
  { uint16_t a = 32767; unsigned long b = 16ul; assert((a < b) == 0); assert((a < b) * 0 - 1 < 0); }
  { unsigned short a = 65535; unsigned short b = 5; assert((a < b) == 0); assert((a < b) * 0 - 1 < 0); }
  { unsigned char a = 0; int16_t b = 20; assert((a < b) == 1); assert((a < b) * 0 - 1 < 0); }
  { long a = 0l; uint8_t b = 131; assert((a < b) == 1); assert((a < b) * 0 - 1 < 0); }
  { uint16_t a = 51442; unsigned char b = 18; assert((a < b) == 0); assert((a < b) * 0 - 1 < 0); }
  { uint8_t a = 1; char b = 0; assert((a < b) == 0); assert((a < b) * 0 - 1 < 0); }
  { int a = (-2147483647); int16_t b = 32767; assert((a < b) == 1); assert((a < b) * 0 - 1 < 0); }
  { int16_t a = 16383; int b = 2147483647; assert((a < b) == 1); assert((a < b) * 0 - 1 < 0); }
  { long a = 1l; unsigned long b = 1ul; assert((a <= b) == 1); assert((a <= b) * 0 - 1 < 0); }
  { short a = (-32768); unsigned short b = 0; assert((a <= b) == 1); assert((a <= b) * 0 - 1 < 0); }
  { unsigned long a = 7398358006764881983ul; unsigned short b = 37785; assert((a <= b) == 0); assert((a <= b) * 0 - 1 < 0); }
  { uint8_t a = 17; short b = 16383; assert((a <= b) == 1); assert((a <= b) * 0 - 1 < 0); }
  { unsigned long a = 9223372036854775807ul; short b = 1; assert((a <= b) == 0); assert((a <= b) * 0 - 1 < 0); }
  { unsigned long a = 0ul; uint8_t b = 255; assert((a <= b) == 1); assert((a <= b) * 0 - 1 < 0); }
  { int16_t a = (-1); unsigned long b = 18271321232650653693ul; assert((a <= b) == 0); assert((a <= b) * 0 - 1 < 0); }
  { bool a = 1; int b = 2147483647; assert((a <= b) == 1); assert((a <= b) * 0 - 1 < 0); }
  { uint8_t a = 0; uint16_t b = 5; assert((a <= b) == 1); assert((a <= b) * 0 - 1 < 0); }
  { unsigned short a = 65535; unsigned char b = 255; assert((a > b) == 1); assert((a > b) * 0 - 1 < 0); }
  { long a = (-9223372036854775807l - 1); int16_t b = 32767; assert((a > b) == 0); assert((a > b) * 0 - 1 < 0); }
  { unsigned long a = 8ul; int8_t b = (-17); assert((a > b) == 0); assert((a > b) * 0 - 1 < 0); }
  { unsigned a = 14u; unsigned b = 0u; assert((a > b) == 1); assert((a > b) * 0 - 1 < 0); }
  { int16_t a = 14; unsigned short b = 32767; assert((a > b) == 0); assert((a > b) * 0 - 1 < 0); }
  { char a = 1; unsigned b = 3369030511u; assert((a > b) == 0); assert((a > b) * 0 - 1 < 0); }
  { uint16_t a = 0; unsigned short b = 0; assert((a > b) == 0); assert((a > b) * 0 - 1 < 0); }
  { unsigned a = 0u; uint16_t b = 32767; assert((a > b) == 0); assert((a > b) * 0 - 1 < 0); }
  { int8_t a = 0; unsigned b = 1u; assert((a > b) == 0); assert((a > b) * 0 - 1 < 0); }
  { unsigned short a = 0; bool b = 1; assert((a >= b) == 0); assert((a >= b) * 0 - 1 < 0); }
  { long a = (-9223372036854775807l); char b = (-127); assert((a >= b) == 0); assert((a >= b) * 0 - 1 < 0); }
  { unsigned long a = 9223372036854775807ul; short b = 1; assert((a >= b) == 1); assert((a >= b) * 0 - 1 < 0); }
  { short a = 1; unsigned long b = 0ul; assert((a >= b) == 1); assert((a >= b) * 0 - 1 < 0); }
  { unsigned short a = 5; unsigned long b = 1ul; assert((a >= b) == 1); assert((a >= b) * 0 - 1 < 0); }
  { unsigned long a = 0ul; uint16_t b = 2; assert((a >= b) == 0); assert((a >= b) * 0 - 1 < 0); }
  { long a = (-9223372036854775807l); int8_t b = (-1); assert((a >= b) == 0); assert((a >= b) * 0 - 1 < 0); }
  { long a = 11l; int16_t b = 1; assert((a >= b) == 1); assert((a >= b) * 0 - 1 < 0); }
  { char a = 0; unsigned long b = 9223372036854775807ul; assert((a >= b) == 0); assert((a >= b) * 0 - 1 < 0); }
  { short a = 0; unsigned char b = 255; assert((a && b) == 0); assert((a && b) * 0 - 1 < 0); }
  { int16_t a = (-32767); int16_t b = (-32767); assert((a && b) == 1); assert((a && b) * 0 - 1 < 0); }
  { int8_t a = 1; bool b = 0; assert((a && b) == 0); assert((a && b) * 0 - 1 < 0); }
  { unsigned char a = 0; short b = (-32768); assert((a && b) == 0); assert((a && b) * 0 - 1 < 0); }
  { short a = (-32767); char b = 127; assert((a && b) == 1); assert((a && b) * 0 - 1 < 0); }
  { bool a = 0; unsigned long b = 8079300113720557163ul; assert((a && b) == 0); assert((a && b) * 0 - 1 < 0); }
  { unsigned char a = 1; bool b = 1; assert((a && b) == 1); assert((a && b) * 0 - 1 < 0); }
  { bool a = 1; uint16_t b = 57777; assert((a && b) == 1); assert((a && b) * 0 - 1 < 0); }
  { bool a = 0; unsigned b = 1u; assert((a && b) == 0); assert((a && b) * 0 - 1 < 0); }
  { unsigned char a = 127; int8_t b = 0; assert((a || b) == 1); assert((a || b) * 0 - 1 < 0); }
  { unsigned a = 0u; unsigned long b = 18446744073709551615ul; assert((a || b) == 1); assert((a || b) * 0 - 1 < 0); }
  { int8_t a = (-5); int b = (-2147483647 - 1); assert((a || b) == 1); assert((a || b) * 0 - 1 < 0); }
  { int16_t a = 32767; unsigned long b = 9704420878270590225ul; assert((a || b) == 1); assert((a || b) * 0 - 1 < 0); }
  { short a = 16383; long b = 9223372036854775807l; assert((a || b) == 1); assert((a || b) * 0 - 1 < 0); }
  { unsigned char a = 0; unsigned b = 1122677698u; assert((a || b) == 1); assert((a || b) * 0 - 1 < 0); }
  { int a = 0; unsigned short b = 0; assert((a || b) == 0); assert((a || b) * 0 - 1 < 0); }
  { short a = (-22598); unsigned short b = 0; assert((a || b) == 1); assert((a || b) * 0 - 1 < 0); }
  { int a = (-64647265); unsigned char b = 255; assert((a || b) == 1); assert((a || b) * 0 - 1 < 0); }
  { int16_t a = 0; assert((-a) == 0); assert((-a) * 0 - 1 < 0); }
  { char a = (-127); assert((-a) == 127); assert((-a) * 0 - 1 < 0); }
  { int16_t a = (-32768); assert((-a) == 32768); assert((-a) * 0 - 1 < 0); }
  { int16_t a = (-7043); assert((-a) == 7043); assert((-a) * 0 - 1 < 0); }
  { int8_t a = 0; assert((-a) == 0); assert((-a) * 0 - 1 < 0); }
  { char a = 127; assert((~a) == (-128)); assert((~a) * 0 - 1 < 0); }
  { int8_t a = 14; assert((~a) == (-15)); assert((~a) * 0 - 1 < 0); }
  { unsigned char a = 255; assert((~a) == (-256)); assert((~a) * 0 - 1 < 0); }
  { uint8_t a = 127; assert((~a) == (-128)); assert((~a) * 0 - 1 < 0); }
  { long a = (-1l); assert((~a) == 0l); assert((~a) * 0 - 1 < 0); }
  { int8_t a = 127; assert((!a) == 0); assert((!a) * 0 - 1 < 0); }
  { uint8_t a = 0; assert((!a) == 1); assert((!a) * 0 - 1 < 0); }
  { unsigned long a = 1ul; assert((!a) == 0); assert((!a) * 0 - 1 < 0); }
  { unsigned short a = 10; assert((!a) == 0); assert((!a) * 0 - 1 < 0); }
  { bool a = 1; assert((!a) == 0); assert((!a) * 0 - 1 < 0); }
  { unsigned char a = 6; assert((+a) == 6); assert((+a) * 0 - 1 < 0); }
  { long a = (-11l); assert((+a) == (-11l)); assert((+a) * 0 - 1 < 0); }
  { uint8_t a = 40; assert((+a) == 40); assert((+a) * 0 - 1 < 0); }
  { uint16_t a = 2; assert((+a) == 2); assert((+a) * 0 - 1 < 0); }
  { char a = (-19); assert((+a) == (-19)); assert((+a) * 0 - 1 < 0); }
  { bool a = 0; assert(((unsigned long)a) == 0ul); assert(((unsigned long)a) * 0 - 1 > 0); }
  { unsigned short a = 32767; assert(((uint16_t)a) == 32767); assert(((uint16_t)a) * 0 - 1 < 0); }
  { unsigned short a = 65535; assert(((short)a) == (-1)); assert(((short)a) * 0 - 1 < 0); }
  { unsigned short a = 1; assert(((uint16_t)a) == 1); assert(((uint16_t)a) * 0 - 1 < 0); }
  { unsigned long a = 1ul; assert(((short)a) == 1); assert(((short)a) * 0 - 1 < 0); }
  { uint16_t a = 0; assert(((unsigned long)a) == 0ul); assert(((unsigned long)a) * 0 - 1 > 0); }
  { unsigned long a = 1ul; assert(((unsigned long)a) == 1ul); assert(((unsigned long)a) * 0 - 1 > 0); }
  { short a = (-32768); assert(((uint8_t)a) == 0); assert(((uint8_t)a) * 0 - 1 < 0); }
  { bool a = 0; assert(((unsigned)a) == 0u); assert(((unsigned)a) * 0 - 1 > 0); }
  { unsigned a = 4294967295u; assert(((unsigned short)a) == 65535); assert(((unsigned short)a) * 0 - 1 < 0); }
  { unsigned char a = 127; assert(((unsigned)a) == 127u); assert(((unsigned)a) * 0 - 1 > 0); }
  { unsigned short a = 65535; assert(((unsigned long)a) == 65535ul); assert(((unsigned long)a) * 0 - 1 > 0); }
  { long a = 14l; assert(((uint8_t)a) == 14); assert(((uint8_t)a) * 0 - 1 < 0); }
  { unsigned long a = 1677963507714656925ul; assert(((char)a) == (-99)); assert(((char)a) * 0 - 1 < 0); }
  { uint8_t a = 13; bool b = 1; unsigned short c = 41291; assert((a ? b : c) == 1); assert((a ? b : c) * 0 - 1 < 0); }
  { int8_t a = 1; uint16_t b = 27654; bool c = 1; assert((a ? b : c) == 27654); assert((a ? b : c) * 0 - 1 < 0); }
  { uint8_t a = 8; short b = 32767; unsigned c = 0u; assert((a ? b : c) == 32767u); assert((a ? b : c) * 0 - 1 > 0); }
  { unsigned short a = 18; char b = (-128); unsigned char c = 127; assert((a ? b : c) == (-128)); assert((a ? b : c) * 0 - 1 < 0); }
  { short a = 16383; bool b = 0; int8_t c = (-127); assert((a ? b : c) == 0); assert((a ? b : c) * 0 - 1 < 0); }
  { int16_t a = (-32767); int8_t b = 18; long c = (-9212313921687279038l); assert((a ? b : c) == 18l); assert((a ? b : c) * 0 - 1 < 0); }
  { char a = 1; unsigned char b = 1; short c = 32767; assert((a ? b : c) == 1); assert((a ? b : c) * 0 - 1 < 0); }
  { bool a = 1; uint8_t b = 0; uint16_t c = 65535; assert((a ? b : c) == 0); assert((a ? b : c) * 0 - 1 < 0); }
  { unsigned a = 0u; int b = (-114500733); uint8_t c = 0; assert((a ? b : c) == 0); assert((a ? b : c) * 0 - 1 < 0); }
  { char a = 127; short b = (-9); unsigned long c = 2ul; assert((a ? b : c) == 18446744073709551607ul); assert((a ? b : c) * 0 - 1 > 0); }
  { uint16_t a = 46396; long b = 4611686018427387903l; a += b; assert(a == 46395); }
  { int16_t a = (-32767); unsigned b = 3u; a += b; assert(a == (-32764)); }
  { unsigned a = 16u; unsigned char b = 255; a += b; assert(a == 271u); }
  { unsigned long a = 9223372036854775807ul; uint8_t b = 127; a += b; assert(a == 9223372036854775934ul); }
  { unsigned a = 2147483647u; unsigned b = 2008834594u; a += b; assert(a == 4156318241u); }
  { unsigned short a = 32767; char b = (-1); a += b; assert(a == 32766); }
  { short a = 0; short b = (-11); a -= b; assert(a == 11); }
  { uint8_t a = 1; int b = 19; a -= b; assert(a == 238); }
  { long a = (-9223372036854775807l); bool b = 1; a -= b; assert(a == (-9223372036854775807l - 1)); }
  { int16_t a = (-32767); uint16_t b = 55728; a -= b; assert(a == (-22959)); }
  { unsigned a = 4294967295u; unsigned long b = 19ul; a -= b; assert(a == 4294967276u); }
  { unsigned long a = 18446744073709551615ul; int8_t b = 0; a -= b; assert(a == 18446744073709551615ul); }
  { uint8_t a = 255; unsigned b = 1113979018u; a *= b; assert(a == 118); }
  { long a = 910211830793910518l; bool b = 1; a *= b; assert(a == 910211830793910518l); }
  { uint8_t a = 255; uint8_t b = 13; a *= b; assert(a == 243); }
  { unsigned short a = 10; uint8_t b = 0; a *= b; assert(a == 0); }
  { int16_t a = (-32767); int16_t b = (-32767); a *= b; assert(a == 1); }
  { uint16_t a = 65535; unsigned short b = 9; a *= b; assert(a == 65527); }
  { char a = (-128); char b = 19; a /= b; assert(a == (-6)); }
  { char a = 1; uint16_t b = 65535; a /= b; assert(a == 0); }
  { int8_t a = (-92); unsigned short b = 32767; a /= b; assert(a == 0); }
  { bool a = 0; int8_t b = (-1); a /= b; assert(a == 0); }
  { bool a = 0; unsigned char b = 19; a /= b; assert(a == 0); }
  { bool a = 0; uint8_t b = 127; a /= b; assert(a == 0); }
  { int8_t a = 1; int16_t b = (-32768); a %= b; assert(a == 1); }
  { unsigned char a = 0; char b = 63; a %= b; assert(a == 0); }
  { unsigned long a = 9223372036854775807ul; bool b = 1; a %= b; assert(a == 0ul); }
  { char a = (-128); short b = (-1); a %= b; assert(a == 0); }
  { uint16_t a = 0; char b = (-1); a %= b; assert(a == 0); }
  { unsigned short a = 0; unsigned short b = 1; a &= b; assert(a == 0); }
  { short a = (-1); unsigned b = 16u; a &= b; assert(a == 16); }
  { char a = (-128); int b = (-2147483647); a &= b; assert(a == 0); }
  { int16_t a = 1; unsigned b = 2147483647u; a &= b; assert(a == 1); }
  { unsigned a = 499636678u; unsigned short b = 0; a &= b; assert(a == 0u); }
  { uint8_t a = 247; char b = (-127); a &= b; assert(a == 129); }
  { int8_t a = 0; int16_t b = (-32767); a |= b; assert(a == 1); }
  { unsigned char a = 0; char b = 49; a |= b; assert(a == 49); }
  { unsigned char a = 0; int16_t b = (-32767); a |= b; assert(a == 1); }
  { unsigned long a = 1ul; int b = 2147483647; a |= b; assert(a == 2147483647ul); }
  { int16_t a = 32767; bool b = 1; a |= b; assert(a == 32767); }
  { long a = (-9223372036854775807l - 1); int8_t b = (-1); a |= b; assert(a == (-1l)); }
  { int a = 2147483647; unsigned b = 4294967295u; a ^= b; assert(a == (-2147483647 - 1)); }
  { char a = 0; uint8_t b = 255; a ^= b; assert(a == (-1)); }
  { int8_t a = 7; long b = 4611686018427387903l; a ^= b; assert(a == (-8)); }
  { short a = (-32767); unsigned b = 3019996159u; a ^= b; assert(a == (-1026)); }
  { long a = 4255293264836758492l; long b = (-1l); a ^= b; assert(a == (-4255293264836758493l)); }
  { unsigned short a = 1; uint8_t b = 127; a ^= b; assert(a == 126); }
  { unsigned long a = 20ul; uint16_t b = 3; a <<= b; assert(a == 160ul); }
  { unsigned long a = 1ul; unsigned long b = 8ul; a <<= b; assert(a == 256ul); }
  { long a = 16l; bool b = 0; a <<= b; assert(a == 16l); }
  { uint8_t a = 1; uint16_t b = 3; a <<= b; assert(a == 8); }
  { int8_t a = (-17); char b = 3; a >>= b; assert(a == (-3)); }
  { bool a = 0; int b = 15; a >>= b; assert(a == 0); }
  { bool a = 1; unsigned long b = 1ul; a >>= b; assert(a == 0); }
  { bool a = 1; unsigned b = 7u; a >>= b; assert(a == 0); }
  { int8_t a = 13; ++a; assert(a == 14); }
  { unsigned short a = 0; a++; assert(a == 1); }
  { uint8_t a = 77; ++a; assert(a == 78); }
  { short a = 32767; a++; assert(a == (-32768)); }
  { unsigned long a = 9223372036854775807ul; ++a; assert(a == 9223372036854775808ul); }
  { int8_t a = (-1); --a; assert(a == (-2)); }
  { int8_t a = (-1); a--; assert(a == (-2)); }
  { char a = (-127); --a; assert(a == (-128)); }
  { char a = (-4); a--; assert(a == (-5)); }
  { unsigned short a = 8; --a; assert(a == 7); }
  { long n = gcd(84, 36); assert(n == 12); }
  { long n = gcd(17, 5); assert(n == 1); }
  { long n = bits(0xf0f1u); assert(n == 9); }
  { long n = bits(4294967295u); assert(n == 32); }
  { long n = fib(10); assert(n == 55); }
  { long n = fib(20); assert(n == 6765); }
  { long n = factorial(5); assert(n == 120); }
  { long n = factorial(15); assert(n == 1307674368000); }
  { long n = crc(1); assert(n == 7); }
  { long n = crc(0xc3); assert(n == 71); }
  { long n = days(2); assert(n == 28); }
  { long n = days(9); assert(n == 30); }
  { long n = days(12); assert(n == 31); }
  { long n = falls(1); assert(n == 11); }
  { long n = falls(2); assert(n == 10); }
  { long n = falls(3); assert(n == 1100); }
  { long n = falls(4); assert(n == 1000); }
  { long n = primes(50); assert(n == 15); }
  { long n = sorted(0); assert(n == -3); }
  { long n = sorted(3); assert(n == 5); }
  { long n = sorted(5); assert(n == 12); }
  { long n = root(99); assert(n == 9); }
  { long n = root(100); assert(n == 10); }
  { long n = steps(7); assert(n == 16); }
  { long n = steps(9); assert(n == 19); }
  { long n = lfsr(0xace1, 5); assert(n == 3623); }
  { long n = lfsr(1, 16); assert(n == 31809); }
  { long n = shadows(4); assert(n == 7); }
  { long n = wraps(200); assert(n == -56); }
  { long n = wraps(-129); assert(n == 127); }
  assert(false);
  return 0;
}
