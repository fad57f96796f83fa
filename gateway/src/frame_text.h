/* A frame as candump writes it and cansend reads it: 18FEF121#0102, 123#R, an error frame with its flag, 20000040#0000000000000000. */
#ifndef GATEWAY_FRAME_TEXT_H
#define GATEWAY_FRAME_TEXT_H

#include <linux/can.h>
#include <stdbool.h>

/* The longest text, its end included. */
#define FRAME_TEXT_BYTES (8 + 1 + 2 * CAN_MAX_DLEN + 1)

/* False for a text that is no such frame. FD frames are none. */
bool frame_text_read(const char *text, struct can_frame *frame);

void frame_text_write(const struct can_frame *frame, char text[FRAME_TEXT_BYTES]);

#endif
