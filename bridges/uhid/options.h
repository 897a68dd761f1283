// The command-line options of hidlog-uhid.
#ifndef OPTIONS_H
#define OPTIONS_H

#include "user.h"

struct options {
    struct user user;
    const char *state;    // the key's file
    const char *recorded; // the session's log, or NULL
    int device;           // the descriptor of /dev/uhid if it is already open, or -1
    bool is_help;         // help or the version was requested and printed
};

// Parses the command line into *options. Prints the help or the version instead if one of them is requested. Returns
// false after an error, which is printed to standard error.
bool options_parse(struct options *options, int count, char **words);

#endif
