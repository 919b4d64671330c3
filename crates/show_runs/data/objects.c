static const unsigned char table[4] = { 3, 1, 4, 1 };
static int total = 2;
int main(void) {
  unsigned char i;
  total += table[i & 3];
  assert(total != 6);
  total = total * 2;
  assert(total != 10);
}
