/* The way in for a program of this machine: a line of the control socket is done as a tool on a port would do it, and answered by a line. Everything goes through the unit's
   own calls, so that its refusals are the proved ones; what only asks is asked of a copy of the record. */
#ifndef GATEWAY_CONTROL_H
#define GATEWAY_CONTROL_H

#include "control_request.h"
#include "gateway.h"

/* Does what a line says, behind which a 0 stands, and writes the answer, a line with its end: its length. A line that is no request changes nothing. */
size_t control_line(struct gateway *gateway, const struct history_sender *sender, const char *line, size_t length, int64_t now, char *answer, size_t size);

/* An answer that is an error and no more. */
size_t control_error(const char *words, char *answer, size_t size);

#endif
