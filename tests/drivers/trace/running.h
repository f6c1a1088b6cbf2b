/* Running the program. */
#ifndef RUNNING_H
#define RUNNING_H

#include "trace.h"

/* Runs the program on the trace. Gives what it wrote, as text. */
struct text run(const char *program);

#endif
