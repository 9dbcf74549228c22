/* The bytes of a mode as the C compiler lays out the kernel's own struct. */
#include <stdio.h>
#include <string.h>
#include HEADER

int main(void) {
    struct drm_mode_modeinfo mode;
    memset(&mode, 0, sizeof mode);
    mode.clock = 148500;
    mode.hdisplay = 1920;
    mode.hsync_start = 2008;
    mode.hsync_end = 2052;
    mode.htotal = 2200;
    mode.hskew = 0;
    mode.vdisplay = 1080;
    mode.vsync_start = 1084;
    mode.vsync_end = 1089;
    mode.vtotal = 1125;
    mode.vscan = 0;
    mode.vrefresh = 60;
    mode.flags = 5;
    mode.type = 64;
    strcpy(mode.name, "1920x1080");
    const unsigned char *bytes = (const unsigned char *)&mode;
    for (size_t i = 0; i < sizeof mode; i++)
        printf("%02x", bytes[i]);
    printf("\n");
    return 0;
}
