/* Draw lists as files: their packets by name, and where a refused one goes wrong, in words. */
#ifndef FLISKADEE_HOST_DRAW_LIST_FILE_H
#define FLISKADEE_HOST_DRAW_LIST_FILE_H

#include <stdbool.h>

/* Prints a line for each packet of the list in a file, up to the one that is refused, and then the library's verdict; if `quiet`, the
   verdict alone. Answers the status. Where the file cannot be read or is no whole words, or where this tool and the library disagree,
   it complains and prints nothing. */
int check_draw_list(const char *path, bool quiet);

#endif
