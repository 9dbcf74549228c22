/* The ten frames of scaled.kms, composed and digested by plain C: the digest of each on standard output, one a line, and
   the time on standard error. The columns of the scaled layer are found once for a frame, and its row once for a row. */
enum { WIDTH = 1920, HEIGHT = 1080, FRAMES = 10, WIDE = 960, HIGH = 720, LEFT = 300, TOP = 200 };

#include "../composing.h"

/* The pixel of a framebuffer of so many that is shown at a place of so many, all of it being shown. */
static int place(int long_, int wide, int at)
{
    return (int)((2 * (uint64_t)at + 1) * long_ * 65536 / (2 * (uint64_t)wide) / 65536);
}

static void put_scaled(const struct layer *layer, const int *columns, uint8_t *frame, int y)
{
    if (y < TOP || y >= TOP + HIGH)
        return;
    const uint32_t *row = layer->words + (size_t)place(layer->height, HIGH, y - TOP) * layer->width;
    uint8_t *pixel = frame + 3 * ((size_t)y * WIDTH + LEFT);
    for (int i = 0; i < WIDE; i++, pixel += 3) {
        uint32_t word = row[columns[i]], q = layer->has_alpha ? word >> 24 : 255;
        for (int c = 0; c < 3; c++)
            pixel[c] = blended(layer->blend, layer->alpha, q, word >> (16 - 8 * c) & 255, pixel[c]);
    }
}

int main(void)
{
    double start = seconds(), composing = 0;
    struct layer back = {ramp(WIDTH, HEIGHT), WIDTH, HEIGHT, 0, 0, 0, 65535, PREMULTIPLIED};
    struct layer over = {checker(640, 480, 0x80402010, 0xc0306090, 16), 640, 480, LEFT, TOP, 1, 32768, PREMULTIPLIED};
    struct layer hand = {checker(64, 64, 0xffffffff, 0x00000000, 8), 64, 64, 0, 100, 1, 65535, PREMULTIPLIED};
    uint8_t *frame = malloc(3 * WIDTH * HEIGHT), table[3][256];
    int columns[WIDE];
    if (!frame)
        return 1;
    for (int v = 0; v < 256; v++) {
        table[0][v] = v;
        table[1][v] = (v * 205) >> 8;
        table[2][v] = v / 2;
    }
    for (int i = 0; i < FRAMES; i++) {
        double before = seconds();
        over.blend = i % 3;
        hand.x = 16 * i;
        memset(frame, 0, 3 * WIDTH * HEIGHT);
        for (int x = 0; x < WIDE; x++)
            columns[x] = place(over.width, WIDE, x);
        for (int y = 0; y < HEIGHT; y++) {
            put(&back, frame, y);
            put_scaled(&over, columns, frame, y);
            put(&hand, frame, y);
            uint8_t *row = frame + (size_t)3 * WIDTH * y;
            for (int x = 0; x < 3 * WIDTH; x += 3)
                for (int c = 0; c < 3; c++)
                    row[x + c] = table[c][row[x + c]];
        }
        composing += seconds() - before;
        print_digest(frame, 3 * WIDTH * HEIGHT);
    }
    fprintf(stderr, "composed %.1f ms, all %.1f ms\n", 1e3 * composing, 1e3 * (seconds() - start));
    return 0;
}
