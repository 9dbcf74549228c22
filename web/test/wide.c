// Calls of 128 bits with their halves, by the operators that the compiler turns into calls of mem.c.
typedef unsigned long long Size;
typedef unsigned __int128 Wide;

static Wide wide(Size low, Size high) {
    return (Wide)high << 64 | low;
}

static void put(Size *to, Wide number) {
    to[0] = (Size)number;
    to[1] = (Size)(number >> 64);
}

void product(Size *to, Size a, Size b, Size c, Size d) {
    put(to, wide(a, b) * wide(c, d));
}

void left(Size *to, Size a, Size b, int by) {
    put(to, wide(a, b) << by);
}

void right(Size *to, Size a, Size b, int by) {
    put(to, wide(a, b) >> by);
}

void signed_right(Size *to, Size a, Size b, int by) {
    put(to, (Wide)((__int128)wide(a, b) >> by));
}
