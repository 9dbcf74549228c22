/* The bytes of a flip event as the C compiler lays out the kernel's own struct. */
#include <stdio.h>
#include <string.h>
#include HEADER

int main(void) {
    struct drm_event_vblank event;
    memset(&event, 0, sizeof event);
    event.base.type = DRM_EVENT_FLIP_COMPLETE;
    event.base.length = sizeof event;
    event.user_data = 7;
    event.sequence = 1;
    event.crtc_id = 100;
    const unsigned char *bytes = (const unsigned char *)&event;
    for (size_t i = 0; i < sizeof event; i++)
        printf("%02x", bytes[i]);
    printf("\n");
    return 0;
}
