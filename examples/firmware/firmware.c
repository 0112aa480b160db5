#include "firmware.h"

#include <stdlib.h>

/* In 1:3 a digit's byte is b DP c a d g f e, most significant bit first. */
#ifndef MINUS
#define MINUS 0x04 /* g; the firmware of the incident had a zero here */
#endif

static const uint8_t digits[] = {0xBB, 0xA0, 0x9D, 0xBC, 0xA6, 0x3E, 0x3F, 0xB0, 0xBF, 0xBE};

int firmware_show(firmware_send send, int cents) {
    if (cents < -9 || cents > 9) return 1;
    const uint8_t bytes[] = {
        0x70,       /* group 0 */
        0x80, 0xCB, /* mode-set: on, 1:3 */
        0x80, 0xE0, /* device-select 0 */
        0x80, 0x09, /* pointer 159, the last column of chip 0 */
        0x80, 0x4F,
        0x40, (uint8_t)(cents < 0 ? MINUS : 0), digits[abs(cents)],
    };
    return send(bytes, sizeof bytes) != sizeof bytes;
}
