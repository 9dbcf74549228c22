/* The frames of screens.kms, composed and digested by plain C: the digest of each on standard output, one a line, and the
   time on standard error. Each frame is composed whole. */
enum { WIDTH = 1920, HEIGHT = 1080, CRTCS = 4, COMMITS = 100 };

#include "../composing.h"

int main(void)
{
    double start = seconds(), composing = 0;
    uint32_t *back = ramp(WIDTH, HEIGHT), *hand = checker(64, 64, 0xffffffff, 0x80402010, 8);
    uint8_t *frame = malloc(3 * WIDTH * HEIGHT);
    if (!frame)
        return 1;
    for (int crtc = 0; crtc < CRTCS; crtc++)
        for (int i = 0; i <= COMMITS / CRTCS; i++) {
            double before = seconds();
            struct layer layers[2] = {
                {back, WIDTH, HEIGHT, 0, 0, 0, 65535, PREMULTIPLIED},
                {hand, 64, 64, 16 * crtc + 70 * i, 100 + 30 * i, 1, 65535, PREMULTIPLIED},
            };
            memset(frame, 0, 3 * WIDTH * HEIGHT);
            for (int y = 0; y < HEIGHT; y++)
                for (int l = 0; l < 2; l++)
                    put(&layers[l], frame, y);
            composing += seconds() - before;
            print_digest(frame, 3 * WIDTH * HEIGHT);
        }
    fprintf(stderr, "composed %.1f ms, all %.1f ms\n", 1e3 * composing, 1e3 * (seconds() - start));
    return 0;
}
