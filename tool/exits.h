/* How the tool ends, and how it says why. */
#ifndef EXITS_H
#define EXITS_H

enum exits {
    EXIT_DONE = 0,
    EXIT_REFUSED = 1,     /* the library refused: number, place and words on stderr */
    EXIT_USAGE = 2,       /* the command line or a design file is not what was expected */
    EXIT_IMAGE = 3,       /* the file is not an image, or can't be read or written */
    EXIT_BAD_SETS = 4,    /* the audit found bad sets */
    EXIT_HELD_BACK = 5,   /* a rule of this tool: the image exists already, or a call on it was cut off */
    EXIT_IN_USE = 6,      /* another process has the image */
    EXIT_INTERRUPTED = 7  /* a signal came, and the tool stopped between two calls */
};

/* Prints one line to stderr, with the tool's name before it. */
void complain(const char *format, ...) __attribute__((format(printf, 1, 2)));

#endif
