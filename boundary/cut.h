#ifndef CUT_H
#define CUT_H

/* A write that is cut off, and what the header says to do then. */
void cut(void);

#endif
