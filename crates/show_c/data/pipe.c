struct stage { unsigned char q; };
struct pipe { unsigned char d; unsigned char q; struct stage s1; struct stage s2; };
extern struct pipe pipe;
int main(void) {
  pipe.d = 7; set_inputs(); next_timeframe();
  assert(pipe.s1.q == 7);
  next_timeframe();
  assert(pipe.s2.q == 7 && pipe.q == 7);
  return 0;
}
