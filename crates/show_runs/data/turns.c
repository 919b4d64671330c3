int main(void) {
  unsigned char n;
  for (unsigned char i = n; i < 250; i += 50) { }
}
