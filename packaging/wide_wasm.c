/* Products and shifts of 128 bits, which WebAssembly has no instructions for: compilers call them by these names. No proof covers this file. */
typedef unsigned long long half;

union wide {
    __int128 whole;
    struct {
        half low, high;
    } part;
};

/* The upper half of a product of two halves, by quarters. It is left as it stands: a compiler that saw the product in it would call __multi3. */
__attribute__((optnone, noinline)) static half upper_of(half left, half right) {
    half left_low = (unsigned)left, left_high = left >> 32, right_low = (unsigned)right, right_high = right >> 32;
    half low = left_low * right_low, middle = left_high * right_low + (low >> 32), other = left_low * right_high + (unsigned)middle;
    return left_high * right_high + (middle >> 32) + (other >> 32);
}

__int128 __multi3(__int128 left, __int128 right) {
    union wide one = {left}, other = {right}, product;
    product.part.low = one.part.low * other.part.low;
    product.part.high = upper_of(one.part.low, other.part.low) + one.part.low * other.part.high + one.part.high * other.part.low;
    return product.whole;
}

__int128 __ashlti3(__int128 given, int by) {
    union wide it = {given};
    if (by >= 64) {
        it.part.high = it.part.low << (by - 64);
        it.part.low = 0;
    } else if (by > 0) {
        it.part.high = it.part.high << by | it.part.low >> (64 - by);
        it.part.low <<= by;
    }
    return it.whole;
}

/* Shifts to the right; `sign` is what comes in above. */
static __int128 to_right(__int128 given, int by, half sign) {
    union wide it = {given};
    if (by >= 64) {
        it.part.low = by == 64 ? it.part.high : it.part.high >> (by - 64) | sign << (128 - by);
        it.part.high = sign;
    } else if (by > 0) {
        it.part.low = it.part.low >> by | it.part.high << (64 - by);
        it.part.high = it.part.high >> by | sign << (64 - by);
    }
    return it.whole;
}

__int128 __lshrti3(__int128 given, int by) { return to_right(given, by, 0); }
__int128 __ashrti3(__int128 given, int by) { return to_right(given, by, given < 0 ? ~(half)0 : 0); }
