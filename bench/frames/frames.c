/* The ten frames of frames.kms, composed and digested by plain C: the digest of each on standard output, one a line,
   and the time on standard error. */
enum { WIDTH = 1920, HEIGHT = 1080, FRAMES = 10 };

#include "../composing.h"

int main(void)
{
    double start = seconds(), composing = 0;
    struct layer layers[3] = {
        {ramp(WIDTH, HEIGHT), WIDTH, HEIGHT, 0, 0, 0, 65535, PREMULTIPLIED},
        {checker(640, 480, 0x80402010, 0xc0306090, 16), 640, 480, 300, 200, 1, 32768, PREMULTIPLIED},
        {checker(64, 64, 0xffffffff, 0x00000000, 8), 64, 64, 0, 100, 1, 65535, PREMULTIPLIED},
    };
    uint8_t *frame = malloc(3 * WIDTH * HEIGHT);
    if (!frame)
        return 1;
    for (int i = 0; i < FRAMES; i++) {
        double before = seconds();
        layers[1].blend = i % 3;
        layers[2].x = 16 * i;
        memset(frame, 0, 3 * WIDTH * HEIGHT);
        for (int y = 0; y < HEIGHT; y++)
            for (int l = 0; l < 3; l++)
                put(&layers[l], frame, y);
        composing += seconds() - before;
        print_digest(frame, 3 * WIDTH * HEIGHT);
    }
    fprintf(stderr, "composed %.1f ms, all %.1f ms\n", 1e3 * composing, 1e3 * (seconds() - start));
    return 0;
}
