// A library with the calls of c/kms.h that gives each script back as its text, for trying module.js and what may go wrong. A
// script's first letter may ask for something else.
typedef unsigned long long Size;
typedef unsigned int Number;
typedef unsigned char Byte;

struct Told {
    Number status, line, why, object;
    Size place, length;
};

enum { DRAINED = 0, ROOM = 2, OPTIONS = 3, FAULT = 4, MEMORY = 6, ILLEGAL = 7, WRONG = 9, CLOSED = 10 };

void *page_take(Size size);

static volatile Number depth;

// Takes all of the stack, however much there is.
static Number fall(volatile Byte *above) {
    volatile Byte here[256];
    here[0] = above[0];
    depth++;
    return fall(here) + here[0];
}

static void ask(Byte letter, struct Told *told) {
    if (letter == 's') for (;;) depth++;
    if (letter == 'd') told->status = fall(&letter);
    if (letter == 't') __builtin_trap();
    if (letter == 'f') *told = (struct Told){.status = FAULT, .line = 2, .why = 3};
    if (letter == 'i') *told = (struct Told){.status = ILLEGAL, .place = 1ULL << 33};
    if (letter == 'w') *told = (struct Told){.status = WRONG, .line = 5};
    if (letter == 'c') *told = (struct Told){.status = CLOSED, .object = 203};
    if (letter == 'm') {
        for (Size size = 1 << 26; page_take(size);) depth++;
        *told = (struct Told){.status = MEMORY};
    }
}

// Takes memory besides, as the device does, so that views of the memory grow old.
static void echo(const Byte *script, Size size, Byte *out, Size room, struct Told *told) {
    *told = (struct Told){.status = size > room ? ROOM : DRAINED, .length = size};
    if (!page_take(1 << 20)) *told = (struct Told){.status = MEMORY};
    for (Size at = 0; at < size && size <= room; at++) out[at] = script[at];
    if (size > 0) ask(script[0], told);
}

void kms_one(const Byte *script, Size size, Number options, Byte *out, Size room, struct Told *told) {
    if (options > 3) *told = (struct Told){.status = OPTIONS};
    else echo(script, size, out, room, told);
}

void kms_replay(const Byte *script, Size size, Number options, Byte *out, Size room, struct Told *told) {
    kms_one(script, size, options, out, room, told);
}

void kms_verdicts(const Byte *script, Size size, Byte *out, Size room, struct Told *told) {
    echo(script, size, out, room, told);
}

void kms_suspend(const Byte *script, Size size, Byte *out, Size room, struct Told *told) {
    echo(script, size, out, room, told);
}

void kms_legacy(const Byte *script, Size size, Byte *out, Size room, struct Told *told) {
    echo(script, size, out, room, told);
}

void kms_audit(const Byte *input, Size size, struct Told *told) {
    *told = (struct Told){.status = DRAINED};
    if (size > 0) ask(input[0], told);
}
