int main(void) {
  unsigned char c;
  int n = 0;
  for (int i = 0; i < 4; i++) {
    switch (c >> i & 1) {
    case 0: continue;
    case 1: break;
    }
    n++;
  }
  assert(n < 4);
}
