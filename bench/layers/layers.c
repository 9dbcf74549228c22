/* The frames of script.sh, composed and digested by plain C: the digest of each on standard output, one a line, and the time on
   standard error. LAYERS says how many layers there are, HAS_ALPHA whether the format of those above the lowest has alpha. */
enum { WIDTH = 1920, HEIGHT = 1080, FRAMES = 6 };

#include "../composing.h"

int main(void)
{
    double start = seconds(), composing = 0;
    const uint32_t *over = checker(WIDTH, HEIGHT, 0x80402010, 0xc0306090, 16);
    struct layer layers[LAYERS] = {{ramp(WIDTH, HEIGHT), WIDTH, HEIGHT, 0, 0, 0, 65535, PREMULTIPLIED}};
    uint8_t *frame = malloc(3 * WIDTH * HEIGHT);
    if (!frame)
        return 1;
    for (int i = 0; i < FRAMES; i++) {
        double before = seconds();
        for (int l = 1; l < LAYERS; l++)
            layers[l] = (struct layer){over, WIDTH, HEIGHT, 0, 0, HAS_ALPHA, 20000 + 1000 * l + i, i % 3};
        memset(frame, 0, 3 * WIDTH * HEIGHT);
        for (int y = 0; y < HEIGHT; y++)
            for (int l = 0; l < LAYERS; l++)
                put(&layers[l], frame, y);
        composing += seconds() - before;
        print_digest(frame, 3 * WIDTH * HEIGHT);
    }
    fprintf(stderr, "composed %.1f ms, all %.1f ms\n", 1e3 * composing, 1e3 * (seconds() - start));
    return 0;
}
