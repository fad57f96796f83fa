#include "history.h"

#include <stddef.h>

void history_add_frame(struct history *history, const struct history_frame *frame)
{
    history->frames[history->frames_count++ % HISTORY_SIZE] = *frame;
}

void history_add_command(struct history *history, const struct history_command *command)
{
    history->commands[history->commands_count++ % HISTORY_SIZE] = *command;
}

/* Where the i-th from the last stands, or -1. */
static int place(uint64_t count, uint32_t i)
{
    return i >= HISTORY_SIZE || i >= count ? -1 : (int)((count - 1 - i) % HISTORY_SIZE);
}

const struct history_frame *history_frame(const struct history *history, uint32_t i)
{
    int at = place(history->frames_count, i);
    return at < 0 ? NULL : &history->frames[at];
}

const struct history_command *history_command(const struct history *history, uint32_t i)
{
    int at = place(history->commands_count, i);
    return at < 0 ? NULL : &history->commands[at];
}
