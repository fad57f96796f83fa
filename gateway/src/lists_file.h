/* The lists file on disk. */
#ifndef GATEWAY_LISTS_FILE_H
#define GATEWAY_LISTS_FILE_H

#include "lists.h"

struct lists_text {
    size_t length;
    char bytes[LISTS_TEXT_MAX];
};

/* What became of a save where it is neither 0, done, nor an errno (all below 200). */
enum lists_save {
    LISTS_EDITED = 200,  /* the file holds what this program neither read nor wrote: it is left alone */
    LISTS_UNSYNCED = 201 /* written, but the folder could not be synced: a power cut may leave the old file */
};

/* Reads the file whole, or tells what is wrong and leaves `lists` alone; `known` is what it held. A file that is not there is wrong too: every pair would silently be
   cleared. */
bool lists_file_load(const char *path, uint32_t ports, struct lists *lists, struct lists_text *known, struct lists_error *error);

/* Writes PATH.new, syncs it, renames it to PATH and syncs the folder: a power cut leaves the old file or the new. A file that is there has to hold `known`, what was read
   from it or saved there last. 0, an errno or an enum lists_save. */
int lists_file_save(const char *path, const struct lists_text *known, const struct lists_text *text);

#endif
