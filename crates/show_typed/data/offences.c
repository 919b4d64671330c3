//// name declared twice: two objects of the file
int n; char n; int main(void) { }
//// no offence: two names
int n; char m; int main(void) { }
//// name declared twice: a parameter stands in the scope of the body
void f(int n) { int n; } int main(void) { }
//// no offence: a block of its own
void f(int n) { { int n; } } int main(void) { }
//// name declared twice: a parameter of a declaration without body
int f(int a, int a); int main(void) { }
//// name declared twice: a member
struct m { int a; char b; int a; }; int main(void) { }
//// no offence: members of two structs
struct m { int a; }; struct k { int a; }; int main(void) { }
//// name declared twice: a tag
struct m { int a; }; struct m { int b; }; int main(void) { }
//// no offence: a tag and an object of one name
struct m { int a; }; int m; int main(void) { }
//// name declared twice: a second body
void f(void) { } void f(void) { } int main(void) { }
//// no offence: a function declared again
void f(void); void f(void) { } void f(void); int main(void) { }
//// name declared twice: a body of a function that is known
void set_inputs(void) { } int main(void) { }
//// no offence: a function that is known is declared
void set_inputs(void); void next_timeframe(void); int main(void) { }
//// name declared twice: a function and an object
void f(void); int f; int main(void) { }
//// name declared twice: the head of a loop is a scope of its own, and so is its body
int main(void) { for (int i = 0; i < 2; i++) { int i = 3; } int i; char i; }
//// unknown name: an object
int main(void) { n = 1; }
//// no offence: declared before
int main(void) { int n; n = 1; }
//// unknown name: declared behind
int main(void) { n = 1; } int n;
//// unknown name: in its own initializer
int main(void) { int n = n; }
//// unknown name: an object of an outer scope is hidden in its initializer
int n; int main(void) { int n = n; }
//// unknown name: behind the block
int main(void) { { int n; } n = 1; }
//// unknown name: a call
int main(void) { f(); }
//// unknown name: a function that is known stands for a call alone
int n; int main(void) { n = set_inputs; }
//// unknown struct: the mirror's
extern struct m m; int main(void) { }
//// unknown struct: of a member, inside its own declaration
struct m { struct m inner; }; int main(void) { }
//// no offence: a struct that ended before
struct k { int a; }; struct m { struct k inner; }; extern struct m m; int main(void) { }
//// not an integer: an array
int t[4]; int n; int main(void) { n = t; }
//// no offence: an element
int t[4]; int n; int main(void) { n = t[0]; }
//// not an integer: an index on no array
int n; int main(void) { n = n[0]; }
//// not an integer: a member that the struct lacks
struct m { int a; }; extern struct m m; int n; int main(void) { n = m.b; }
//// no offence: a member
struct m { int a; }; extern struct m m; int n; int main(void) { n = m.a; }
//// not an integer: a struct
struct m { int a; }; extern struct m m; int n; int main(void) { n = m; }
//// not an integer: a function
void f(void) { } int n; int main(void) { n = f; }
//// not an integer: a void call as a value
void f(void) { } int n; int main(void) { n = f(); }
//// no offence: a void call as a statement
void f(void) { } int main(void) { f(); }
//// not a function: an object
int n; int main(void) { n(); }
//// not a function: an object hides a function that is known
int main(void) { int set_inputs; set_inputs(); }
//// wrong number of arguments: one too many
void f(int a) { } int main(void) { f(1, 2); }
//// wrong number of arguments: one too few
void f(int a) { } int main(void) { f(); }
//// no offence: as many as parameters
void f(int a) { } int main(void) { f(1); }
//// not assignable: const
const int n = 1; int main(void) { n = 2; }
//// not assignable: the bound
extern const unsigned int bound; int main(void) { bound = 2; }
//// not assignable: an array
int t[2]; int main(void) { t = 2; }
//// not assignable: the target of an update is no value
int t[2]; int main(void) { t += 2; }
//// not assignable: the target of an increment, behind its sign
int t[2]; int main(void) { ++t; }
//// no offence: an element of an array
int t[2]; int main(void) { t[1] += 2; }
//// wrong return: a value in a void function
void f(void) { return 1; } int main(void) { }
//// wrong return: a void call in a void function
void f(void) { } void g(void) { return f(); } int main(void) { }
//// wrong return: none in a function with a result
int f(void) { return; } int main(void) { }
//// no offence: as the result is
void f(void) { return; } int g(void) { return 1; } int main(void) { }
//// break or continue outside: break
int main(void) { break; }
//// break or continue outside: continue in a switch
int main(void) { switch (1) { case 1: continue; } }
//// no offence: break in a switch, continue in a loop around it
int main(void) { while (0) { switch (1) { case 1: continue; case 2: break; } } }
//// not a constant: a file-scope initializer
int n = 1; int k = n; int main(void) { }
//// not a constant: a call
int f(void) { return 1; } int k = f(); int main(void) { }
//// not a constant: an overflow
int k = 2147483647 + 1; int main(void) { }
//// no offence: the same in a type of 64 bits
long k = 2147483647l + 1; int main(void) { }
//// not a constant: a division by zero
int k = 1 / 0; int main(void) { }
//// no offence: a division that isn't evaluated
int k = 0 && 1 / 0; int main(void) { }
//// not a constant: a shift past the width
int k = 1 << 32; int main(void) { }
//// not a constant: the length of an array
int n; int t[n]; int main(void) { }
//// not a constant: the length holds a path, before the name is unknown
int t[1 + n]; int main(void) { }
//// not a constant: a label
int n; int main(void) { switch (n) { case n: ; } }
//// not a constant: an element of an initializer
int n; int t[3] = { 1, n, 3 }; int main(void) { }
//// no offence: an automatic object begins with any expression
int n; int main(void) { int k = n; int t[2] = { n, k }; }
//// array length: none
int t[0]; int main(void) { }
//// array length: less than none
int t[-1]; int main(void) { }
//// array length: one too many
int t[4097]; int main(void) { }
//// no offence: 4,096 elements
int t[4096]; int main(void) { }
//// too many initializers
int t[2] = { 1, 2, 3 }; int main(void) { }
//// no offence: as many as elements
int t[2] = { 1, 2, }; int main(void) { }
//// case twice: one value
int main(void) { switch (1) { case 1: ; case 2: ; case 1: ; } }
//// case twice: one value, once it is converted
int main(void) { switch (1) { case 0: ; case 4294967296: ; } }
//// no offence: two values of 64 bits
int main(void) { switch (1l) { case 0: ; case 4294967296: ; } }
//// case twice: default
int main(void) { switch (1) { default: ; default: ; } }
//// no offence: a switch inside
int main(void) { switch (1) { case 1: switch (2) { case 1: ; default: ; } default: ; } }
//// function types differ: a parameter's
int f(int a); int f(char a) { return 0; } int main(void) { }
//// function types differ: the result's
int f(void); extern void f(void); int main(void) { }
//// no offence: the same types in other words
long f(unsigned a, int8_t b); long long f(uint32_t x, signed char y) { return 0; } int main(void) { }
//// function types differ: a parameter without name in a definition
int f(int a, char) { return 0; } int main(void) { }
//// function types differ: a function that is known
int next_timeframe(void); int main(void) { }
//// function without body
int f(void); int main(void) { f(); }
//// no offence: the body stands behind
int f(void); int main(void) { f(); } int f(void) { return 1; }
//// no offence: any value
int nondet_int(void); int main(void) { int n = nondet_int(); }
//// function without body: any value has no parameters
int nondet_int(int a); int main(void) { int n = nondet_int(1); }
//// function without body: any value has a type
void nondet_none(void); int main(void) { nondet_none(); }
//// unsupported extern: another name
extern const unsigned int limit; int main(void) { }
//// unsupported extern: another type
extern const int bound; int main(void) { }
//// no offence: the type in other words
extern const uint32_t bound; int main(void) { }
//// unsupported extern: a second mirror
struct m { int a; }; extern struct m m; extern struct m k; int main(void) { }
//// literal too wide: no type of 64 bits holds it
unsigned long n = 18446744073709551616u; int main(void) { }
//// literal too wide: without u
long n = 9223372036854775808; int main(void) { }
//// no offence: with u
unsigned long n = 9223372036854775808u; int main(void) { }
//// wrong main: parameters
int main(int argc) { }
//// wrong main: its result
char main(void) { }
//// no offence: int or nothing
void main(void) { }
//// no main: without body
int main(void);
//// no main: an empty text

//// two offences: the first by place
int n; int main(void) { k = 1; n = l; } int n;
//// two offences of one place: the least number
int t[n]; int main(void) { }
