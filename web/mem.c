// The functions that compiled code calls by name, where no C library is linked. Nothing proves them.
typedef unsigned long long Size;
typedef unsigned char Byte;
typedef unsigned __int128 Wide;

typedef union {
    Wide whole;
    struct {
        Size low, high;
    };
} Halves;

int memcmp(const void *one, const void *other, Size size) {
    const Byte *a = one, *b = other;
    for (; size > 0; size--, a++, b++) {
        if (*a != *b) return *a < *b ? -1 : 1;
    }
    return 0;
}

int bcmp(const void *one, const void *other, Size size) {
    return memcmp(one, other, size);
}

// WebAssembly's own copy takes memories that overlap.
void *memmove(void *to, const void *from, Size size) {
    __asm__ volatile("local.get %0\nlocal.get %1\nlocal.get %2\nmemory.copy 0, 0" ::"r"(to), "r"(from), "r"(size) : "memory");
    return to;
}

void *memcpy(void *to, const void *from, Size size) {
    return memmove(to, from, size);
}

void *memset(void *to, int byte, Size size) {
    __asm__ volatile("local.get %0\nlocal.get %1\nlocal.get %2\nmemory.fill 0" ::"r"(to), "r"(byte), "r"(size) : "memory");
    return to;
}

// Products and shifts of 128 bits, of their halves alone: with whole numbers the compiler would call the same function again.

Wide __multi3(Wide one, Wide other) {
    Halves a = {one}, b = {other}, product;
    Size a0 = a.low & 0xffffffff, a1 = a.low >> 32, b0 = b.low & 0xffffffff, b1 = b.low >> 32;
    Size middle = a1 * b0 + (a0 * b0 >> 32); // each sum below fits: a product of two 32-bit numbers leaves room for two more
    Size cross = a0 * b1 + (middle & 0xffffffff);
    product.low = cross << 32 | (a0 * b0 & 0xffffffff);
    product.high = a1 * b1 + (middle >> 32) + (cross >> 32) + a.low * b.high + a.high * b.low;
    return product.whole;
}

// (A shift by 1 and then by 63 - n is one by 64 - n that is defined at n = 0.)

Wide __ashlti3(Wide number, int by) {
    Halves a = {number}, shifted;
    int n = by & 63;
    shifted.low = by & 64 ? 0 : a.low << n;
    shifted.high = by & 64 ? a.low << n : a.high << n | a.low >> 1 >> (63 - n);
    return shifted.whole;
}

Wide __lshrti3(Wide number, int by) {
    Halves a = {number}, shifted;
    int n = by & 63;
    shifted.high = by & 64 ? 0 : a.high >> n;
    shifted.low = by & 64 ? a.high >> n : a.low >> n | a.high << 1 << (63 - n);
    return shifted.whole;
}

Wide __ashrti3(Wide number, int by) {
    Halves a = {number}, shifted;
    long long high = (long long)a.high;
    int n = by & 63;
    shifted.high = (Size)(by & 64 ? high >> 63 : high >> n);
    shifted.low = by & 64 ? (Size)(high >> n) : a.low >> n | a.high << 1 << (63 - n);
    return shifted.whole;
}
