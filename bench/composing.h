/* Composition and digests in plain C, for frames of WIDTH times HEIGHT pixels, which the including file defines first. The
   formulas are those of the kernel's "Plane Composition Properties", with the rounding and the bound of this repository's
   docs/DEFINITIONS.md; SHA-256 is that of libcrypto. */
#include <openssl/sha.h>
#include <stdint.h>
#include <stdio.h>
#include <stdlib.h>
#include <string.h>
#include <time.h>

enum mode { PREMULTIPLIED, COVERAGE, NONE };

struct layer {
    const uint32_t *words;
    int width, height; /* of the framebuffer, all of which is shown */
    int x, y;
    int has_alpha;
    uint32_t alpha;
    enum mode blend;
};

static uint32_t *words_of(int width, int height)
{
    uint32_t *words = malloc(sizeof *words * width * height);
    if (!words)
        exit(1);
    return words;
}

static uint32_t *ramp(int width, int height)
{
    uint32_t *words = words_of(width, height);
    for (int y = 0; y < height; y++)
        for (int x = 0; x < width; x++)
            words[y * width + x] = 0xff000000u + (x % 256) * 65536u + (y % 256) * 256u + (x + y) % 256;
    return words;
}

static inline uint32_t *checker(int width, int height, uint32_t p, uint32_t q, int n)
{
    uint32_t *words = words_of(width, height);
    for (int y = 0; y < height; y++)
        for (int x = 0; x < width; x++)
            words[y * width + x] = (x / n + y / n) % 2 == 0 ? p : q;
    return words;
}

static uint8_t blended(enum mode mode, uint64_t a, uint64_t q, uint64_t f, uint64_t b)
{
    const uint64_t opaque = 65535 * 255;
    uint64_t shown = mode == COVERAGE ? a * q : a * 255;
    uint64_t hidden = mode == NONE ? a * 255 : a * q;
    uint64_t channel = (shown * f + (opaque - hidden) * b + 8355712) / opaque;
    return channel < 255 ? channel : 255;
}

static void put(const struct layer *layer, uint8_t *frame, int y)
{
    int top = layer->y > 0 ? layer->y : 0;
    int bottom = layer->y + layer->height < HEIGHT ? layer->y + layer->height : HEIGHT;
    int left = layer->x > 0 ? layer->x : 0;
    int right = layer->x + layer->width < WIDTH ? layer->x + layer->width : WIDTH;
    if (y < top || y >= bottom || left >= right)
        return;
    const uint32_t *words = layer->words + (size_t)(y - layer->y) * layer->width + (left - layer->x);
    uint8_t *pixel = frame + 3 * ((size_t)y * WIDTH + left);
    for (int x = left; x < right; x++, words++, pixel += 3) {
        uint32_t q = layer->has_alpha ? *words >> 24 : 255;
        for (int c = 0; c < 3; c++)
            pixel[c] = blended(layer->blend, layer->alpha, q, *words >> (16 - 8 * c) & 255, pixel[c]);
    }
}

static void print_digest(const uint8_t *bytes, size_t length)
{
    uint8_t digest[SHA256_DIGEST_LENGTH];
    SHA256(bytes, length, digest);
    for (int i = 0; i < SHA256_DIGEST_LENGTH; i++)
        printf("%02x", digest[i]);
    putchar('\n');
}

static inline double seconds(void)
{
    struct timespec now;
    clock_gettime(CLOCK_MONOTONIC, &now);
    return now.tv_sec + now.tv_nsec / 1e9;
}
