/* Modules that belong together: the main one first, then the libraries in the order in which they are lent (02, K1). */
#ifndef MODULE_H
#define MODULE_H

#include "run_file.h"

struct module {
    const char *name; /* of its file */
    uint32_t sid;     /* the main one's counts for nothing */
    struct run_file parts;
};

struct modules {
    const struct module *at;
    size_t count;
};

#endif
