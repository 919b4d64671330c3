#include <assert.h>
struct counter { unsigned char count; };
extern struct counter counter;
int main(void) {
  next_timeframe();
  next_timeframe();
  assert(counter.count == 2);
  return 0;
}
