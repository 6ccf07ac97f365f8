/* Numbers of 128 bits, which WebAssembly doesn't have: the functions that compiled code calls by name for them. */

typedef unsigned long half;
typedef unsigned __int128 wide;

union halves {
  wide whole;
  struct {
    half low, high;
  };
};

static wide of(half low, half high) { return (union halves){.low = low, .high = high}.whole; }

/* a * b, modulo 2^128: the lower halves multiplied in four parts of 32 bits, and the upper ones added. */
wide __multi3(wide a, wide b) {
  union halves x = {a}, y = {b};
  half few = (1ul << 32) - 1;
  half a0 = x.low & few, a1 = x.low >> 32, b0 = y.low & few, b1 = y.low >> 32;
  half lowest = a0 * b0;
  half middle = a1 * b0 + (lowest >> 32); /* below 2^64: (2^32 - 1)^2 + 2^32 - 1 */
  half other = a0 * b1 + (middle & few);
  half high = a1 * b1 + (middle >> 32) + (other >> 32);
  return of((other << 32) | (lowest & few), high + x.low * y.high + x.high * y.low);
}

/* a << by, for by below 128. */
wide __ashlti3(wide a, int by) {
  union halves x = {a};
  if (by == 0) return a;
  if (by >= 64) return of(0, x.low << (by - 64));
  return of(x.low << by, (x.high << by) | (x.low >> (64 - by)));
}

/* a >> by, filled with zeros, for by below 128. */
wide __lshrti3(wide a, int by) {
  union halves x = {a};
  if (by == 0) return a;
  if (by >= 64) return of(x.high >> (by - 64), 0);
  return of((x.low >> by) | (x.high << (64 - by)), x.high >> by);
}
