/* A command as a browser sends it, {"do":"add","from":1,"to":2,"pgns":[65226]}: judged by the rules of the control socket, and written anew as a tool on the user's port. No byte
   of the browser's goes to the socket. */
#ifndef PAGE_COMMAND_H
#define PAGE_COMMAND_H

#include "users.h"

#include "../../gateway/src/control_request.h"

#define COMMAND_BYTES (CONTROL_LINE_BYTES + 256)

enum command_judged { COMMAND_GOOD, COMMAND_WRONG, COMMAND_NOT_YOURS };

struct command {
    struct control_request request;
    char line[COMMAND_BYTES]; /* for the socket, with its end */
    size_t length;
    char error[CONTROL_ERROR_BYTES]; /* with COMMAND_WRONG */
};

/* Judges the text, behind which a 0 stands. Port and who are not the browser's to say; a viewer changes nothing. */
enum command_judged command_judge(struct command *command, const char *text, size_t length, const struct user *user);

/* "add" and so on. */
const char *command_word(const struct command *command);

#endif
