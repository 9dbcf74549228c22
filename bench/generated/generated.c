/* The frames of a generated script, composed and digested by plain C: the digest of each on standard output, one a line, by
   CRTC.

   usage: generated SEED N

   Each CRTC shows a ramp first, and then every other one of the N commits, each with an alpha and a place of its own. */
enum { WIDTH = 64, HEIGHT = 64 };

#include "../composing.h"

int main(int count, char **words)
{
    if (count != 3)
        return 1;
    uint32_t commits = strtoul(words[2], NULL, 10);
    uint32_t *first = ramp(WIDTH, HEIGHT), *second = words_of(WIDTH, HEIGHT);
    for (int i = 0; i < WIDTH * HEIGHT; i++)
        second[i] = 0x00204060;
    uint8_t frame[3 * WIDTH * HEIGHT];
    for (uint32_t crtc = 0; crtc < 2; crtc++) {
        uint64_t x = strtoull(words[1], NULL, 10);
        for (uint32_t i = 0; i <= commits; i++) {
            struct layer layer = {first, WIDTH, HEIGHT, 0, 0, 0, 65535, PREMULTIPLIED};
            if (i > 0) {
                x = x * 6364136223846793005u + 1442695040888963407u;
                uint64_t number = x >> 33;
                layer.words = number % 2 == 0 ? first : second;
                layer.alpha = number / 2 % 65536;
                layer.x = number / 131072 % 64;
                if ((i - 1) % 2 != crtc)
                    continue;
            }
            memset(frame, 0, sizeof frame);
            for (int y = 0; y < HEIGHT; y++)
                put(&layer, frame, y);
            print_digest(frame, sizeof frame);
        }
    }
    return 0;
}
