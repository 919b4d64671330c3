#include <assert.h>
#include <stdint.h>
uint8_t nondet_u8(void);
void next_timeframe(void);
void set_inputs(void);
extern const unsigned int bound;
struct alu { uint8_t op; uint8_t a; uint8_t b; uint8_t y; };
extern struct alu alu;
uint8_t model(uint8_t op, uint8_t a, uint8_t b) {
  switch (op) {
    case 0: return a + b;
    case 1: return a - b;
    case 2: return a & b;
    default: return a ^ b;
  }
}
int main(void) {
  for (unsigned i = 0; i < bound; i++) {
    uint8_t op = nondet_u8();
    uint8_t a = nondet_u8();
    uint8_t b = nondet_u8();
    __CPROVER_assume(op < 4);
    alu.op = op; alu.a = a; alu.b = b;
    set_inputs();
    next_timeframe();
    uint8_t want = model(op, a, b);
    assert(alu.y == want);
  }
  return 0;
}
