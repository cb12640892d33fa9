#ifndef THREADS_H
#define THREADS_H

/* Two threads at a time: each gets, call by call, what it gets alone. */
void threads(void);

#endif
