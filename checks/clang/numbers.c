/* Each arithmetic of integers, of each width and sign, with its casts. */
signed char narrow(long wide) { return (signed char)(wide >> 3); }
unsigned long widen(signed char byte) { return (unsigned long)byte; }
int divide(int a, int b) { return b ? a / b + a % b : 0; }
unsigned long mix(unsigned long a, unsigned short b) { return ((a << 7) | (a >> 57)) ^ ~(unsigned long)b; }
int compare(unsigned a, int b) { return (a > 7u) + (b <= -3) + (a != (unsigned)b); }
unsigned swap(unsigned x) { return __builtin_bswap32(x); }
int ones(unsigned long x) { return __builtin_popcountl(x) + __builtin_clzl(x | 1) + __builtin_ctzl(x | 2); }
long larger(long a, long b) { return a > b ? a : b; }
_Bool odd(unsigned x) { return x & 1; }
void *place(unsigned long address) { return (void *)address; }
