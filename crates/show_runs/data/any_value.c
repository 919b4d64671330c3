unsigned char nondet_byte(void);
bool nondet_bit(void);
int main(void) {
  unsigned char a = nondet_byte();
  bool b = nondet_bit();
  if (b) a = nondet_byte();
  nondet_byte();
  assert(a < 128 || b);
}
