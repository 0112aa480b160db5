/* The firmware under test: it shows a price on the panel. It knows nothing of the test. */
#ifndef FIRMWARE_H
#define FIRMWARE_H

#include <stddef.h>
#include <stdint.h>

#ifdef __cplusplus
extern "C" {
#endif

/* Sends one I2C transfer, START to STOP, the address byte first, and gives how many of its bytes were acknowledged. On the board this is the driver's. */
typedef size_t (*firmware_send)(const uint8_t *bytes, size_t length);

/* Shows a price of -9 to 9 cents. 0 if every byte was acknowledged. */
int firmware_show(firmware_send send, int cents);

#ifdef __cplusplus
}
#endif

#endif
