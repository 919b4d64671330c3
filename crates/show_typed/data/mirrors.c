//// mirror, no offence: none
int main(void) { }
//// mirror, no offence: a member
struct top { unsigned char in; }; extern struct top top; int main(void) { }
//// mirror, no offence: each signal, in another order than the module's
struct low { _Bool bit; };
struct sub { unsigned short data[2]; struct low low; unsigned char in; signed char state; };
struct top { struct sub sub; long out; unsigned char mem[4]; unsigned short count; _Bool sel; unsigned char in; _Bool clk; };
extern struct top top;
int main(void) { }
//// mirror, no offence: an empty instance but for one below
struct low { int bit; }; struct sub { struct low low; }; struct top { struct sub sub; }; extern struct top top; int main(void) { }
//// mirror: not the top module
struct top { unsigned char in; }; extern struct top tap; int main(void) { }
//// mirror: not the top module, by its name and not by the tag's
struct top { unsigned char in; }; extern struct top to; int main(void) { }
//// mirror, no offence: another tag
struct tap { unsigned char in; }; extern struct tap top; int main(void) { }
//// mirror: not the top module, by its case
struct top { unsigned char in; }; extern struct top Top; int main(void) { }
//// mirror: not the top module, before a member
struct top { int none; }; extern struct top tap; int main(void) { }
//// mirror: no such signal
struct top { int none; }; extern struct top top; int main(void) { }
//// mirror: no such signal, by its case
struct top { int In; }; extern struct top top; int main(void) { }
//// mirror: no such signal, a part of a name
struct top { int coun; }; extern struct top top; int main(void) { }
//// mirror: no such signal, on the second line
struct top { unsigned char in;
  int state; }; extern struct top top; int main(void) { }
//// mirror: no such signal, a struct
struct part { int state; }; struct top { struct part part; }; extern struct top top; int main(void) { }
//// mirror: no such signal, in an instance
struct sub { int count; }; struct top { struct sub sub; }; extern struct top top; int main(void) { }
//// mirror: no such signal, two instances down
struct low { int state; }; struct sub { struct low low; }; struct top { struct sub sub; }; extern struct top top; int main(void) { }
//// mirror: no such signal, the first of two
struct top { int none; int never; }; extern struct top top; int main(void) { }
//// mirror: depth-first, a member of a struct before one behind it
struct sub { int none; }; struct top { struct sub sub; int never; }; extern struct top top; int main(void) { }
//// mirror: depth-first, a member before a struct's although it stands behind in the text
struct sub { int none; }; struct top { int never; struct sub sub; }; extern struct top top; int main(void) { }
//// mirror: wrong shape, an integer for a memory
struct top { unsigned char mem; }; extern struct top top; int main(void) { }
//// mirror: wrong shape, an integer for an instance
struct top { int sub; }; extern struct top top; int main(void) { }
//// mirror: wrong shape, an array for a signal
struct top { unsigned char in[1]; }; extern struct top top; int main(void) { }
//// mirror: wrong shape, an array for an instance
struct top { int sub[2]; }; extern struct top top; int main(void) { }
//// mirror: wrong shape, an array of another length
struct top { unsigned char mem[3]; }; extern struct top top; int main(void) { }
//// mirror: wrong shape, an array that is longer
struct top { unsigned char mem[5]; }; extern struct top top; int main(void) { }
//// mirror, no offence: an array of a memory's length
struct top { unsigned char mem[4]; }; extern struct top top; int main(void) { }
//// mirror: wrong shape, a struct for a signal
struct in { int a; }; struct top { struct in in; }; extern struct top top; int main(void) { }
//// mirror: wrong shape, a struct for a memory
struct mem { int a; }; struct top { struct mem mem; }; extern struct top top; int main(void) { }
//// mirror: wrong shape before too narrow, for one member
struct top { unsigned char out[2]; }; extern struct top top; int main(void) { }
//// mirror: member too narrow
struct top { unsigned char count; }; extern struct top top; int main(void) { }
//// mirror: member too narrow by one bit
struct top { unsigned out; }; extern struct top top; int main(void) { }
//// mirror, no offence: wider than its signal
struct top { long in; unsigned short count; }; extern struct top top; int main(void) { }
//// mirror: member too narrow, of one bit
struct top { _Bool in; }; extern struct top top; int main(void) { }
//// mirror: member too narrow, the elements of an array
struct top { _Bool mem[4]; }; extern struct top top; int main(void) { }
//// mirror: too narrow at the first member, before none such at the second
struct top { _Bool in; int none; }; extern struct top top; int main(void) { }
//// mirror, no offence: inputs are assigned
struct top { _Bool clk; unsigned char in; _Bool sel; long out; unsigned short count; unsigned char mem[4]; };
extern struct top top;
int main(void) { top.in = 1; top.sel = top.clk; top.in += 2; top.in++; }
//// mirror: not an input, a register
struct top { _Bool clk; unsigned char in; _Bool sel; long out; unsigned short count; unsigned char mem[4]; };
extern struct top top;
int main(void) { top.in = 1; top.count = 1; }
//// mirror: not an input, an output
struct top { _Bool clk; unsigned char in; _Bool sel; long out; unsigned short count; unsigned char mem[4]; };
extern struct top top;
int main(void) { top.out += 1; }
//// mirror: not an input, the clock
struct top { _Bool clk; unsigned char in; _Bool sel; long out; unsigned short count; unsigned char mem[4]; };
extern struct top top;
int main(void) { top.clk = 1; }
//// mirror: not an input, an element of a memory
struct top { _Bool clk; unsigned char in; _Bool sel; long out; unsigned short count; unsigned char mem[4]; };
extern struct top top;
int main(void) { top.mem[top.in & 3] = 1; }
//// mirror: not an input, behind ++
struct top { _Bool clk; unsigned char in; _Bool sel; long out; unsigned short count; unsigned char mem[4]; };
extern struct top top;
int main(void) { ++top.count; }
//// mirror: not an input, from a call
struct top { _Bool clk; unsigned char in; _Bool sel; long out; unsigned short count; unsigned char mem[4]; };
extern struct top top;
int nondet_f(void);
int main(void) { top.count = nondet_f(); }
//// mirror: not an input, the first in the text, in another function
struct top { _Bool clk; unsigned char in; _Bool sel; long out; unsigned short count; unsigned char mem[4]; };
extern struct top top;
void f(void) { top.count = 1; }
int main(void) { top.out = 1; f(); }
//// mirror: not an input, in a function that is never called, in the last part of a for
struct top { _Bool clk; unsigned char in; _Bool sel; long out; unsigned short count; unsigned char mem[4]; };
extern struct top top;
void f(void) { for (int i = 0; i < 2; top.count++) { i++; } }
int main(void) { }
//// mirror: a member is wrong before an assignment that stands before it
struct top { unsigned short count; int none; };
extern struct top top;
int main(void) { top.count = 1; }
//// mirror: not an input, a signal of an instance
struct sub { unsigned char in; }; struct top { struct sub sub; };
extern struct top top;
int main(void) { top.sub.in = 1; }
