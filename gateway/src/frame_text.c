#include "frame_text.h"

#include <stdint.h>
#include <stdio.h>
#include <string.h>

#define DIGITS_ELEVEN_BIT 3
#define DIGITS_EXTENDED 8

/* The value of a hex digit, or -1. */
static int digit(char c)
{
    static const char DIGITS[] = "0123456789ABCDEF";
    if (c >= 'a' && c <= 'f')
        c = (char)(c - 'a' + 'A');
    const char *at = c == '\0' ? NULL : strchr(DIGITS, c);
    return at == NULL ? -1 : (int)(at - DIGITS);
}

static bool read_id(const char *text, size_t digits, canid_t *id)
{
    *id = 0;
    for (size_t i = 0; i < digits; i++) {
        int value = digit(text[i]);
        if (value < 0)
            return false;
        *id = *id << 4 | (canid_t)value;
    }
    if (digits == DIGITS_ELEVEN_BIT)
        return *id <= CAN_SFF_MASK;
    if ((*id & CAN_ERR_FLAG) != 0)
        return (*id & (CAN_EFF_FLAG | CAN_RTR_FLAG)) == 0;
    bool within = *id <= CAN_EFF_MASK;
    *id |= CAN_EFF_FLAG;
    return digits == DIGITS_EXTENDED && within;
}

static bool read_data(const char *text, struct can_frame *frame)
{
    size_t length = strlen(text);
    if (length % 2 != 0 || length / 2 > CAN_MAX_DLEN)
        return false;
    for (size_t i = 0; i < length / 2; i++) {
        int high = digit(text[2 * i]), low = digit(text[2 * i + 1]);
        if (high < 0 || low < 0)
            return false;
        frame->data[i] = (uint8_t)(high << 4 | low);
    }
    frame->len = (uint8_t)(length / 2);
    return true;
}

bool frame_text_read(const char *text, struct can_frame *frame)
{
    memset(frame, 0, sizeof *frame);
    const char *mark = strchr(text, '#');
    if (mark == NULL)
        return false;
    size_t digits = (size_t)(mark - text);
    if ((digits != DIGITS_ELEVEN_BIT && digits != DIGITS_EXTENDED) || !read_id(text, digits, &frame->can_id))
        return false;
    if (mark[1] != 'R')
        return read_data(mark + 1, frame);
    int length = mark[2] == '\0' ? 0 : digit(mark[2]);
    frame->can_id |= CAN_RTR_FLAG;
    frame->len = (uint8_t)length;
    return length >= 0 && length <= CAN_MAX_DLEN && (mark[2] == '\0' || mark[3] == '\0');
}

void frame_text_write(const struct can_frame *frame, char text[FRAME_TEXT_BYTES])
{
    bool extended = (frame->can_id & CAN_EFF_FLAG) != 0, error = (frame->can_id & CAN_ERR_FLAG) != 0;
    canid_t id = frame->can_id & (error ? CAN_ERR_MASK | CAN_ERR_FLAG : extended ? CAN_EFF_MASK : CAN_SFF_MASK);
    int length = snprintf(text, FRAME_TEXT_BYTES, "%0*X#", extended || error ? DIGITS_EXTENDED : DIGITS_ELEVEN_BIT, id);
    size_t at = (size_t)length;
    if ((frame->can_id & CAN_RTR_FLAG) != 0) {
        snprintf(text + at, FRAME_TEXT_BYTES - at, frame->len > 0 ? "R%u" : "R", frame->len);
        return;
    }
    for (int i = 0; i < frame->len && i < CAN_MAX_DLEN; i++, at += 2)
        snprintf(text + at, FRAME_TEXT_BYTES - at, "%02X", frame->data[i]);
}
