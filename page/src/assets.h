/* The files of web/, which are in the program. assets.c is made of them by page/embed. */
#ifndef PAGE_ASSETS_H
#define PAGE_ASSETS_H

#include <stddef.h>

struct asset {
    const char *path, *type, *tag; /* "/list.js", its Content-Type, an ETag */
    const unsigned char *bytes;
    size_t length;
};

extern const struct asset ASSETS[];
extern const size_t ASSETS_COUNT;

#endif
