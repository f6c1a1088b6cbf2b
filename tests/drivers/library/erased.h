/* Streams with erased digits, by the reference's sessions. */
#ifndef ERASED_H
#define ERASED_H

#include "streams.h"

void fail_erased(const struct fields *fields, const struct transmission *t, const char *what);

/* The stream received by a session of each circuit, which must answer alike: waiting, then the frames handed out. */
void receive_by_both(const struct fields *fields, const struct transmission *t, uint8_t *frames);

int correctable(const struct fields *fields, const struct transmission *t);

#endif
