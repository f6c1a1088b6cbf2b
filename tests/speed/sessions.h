/* Sessions for tests/speed, one call of theirs for every frame: the crate `sessions_c`, target/staticlib/libsessions.a. */
#ifndef SESSIONS_H
#define SESSIONS_H

#include <stddef.h>
#include <stdint.h>

/* As burst_send and burst_receive (burst.h), by a session that is opened for it and gets a call for each frame. A call that
 * is refused hands nothing out and the run goes on, and the output must have room for a frame of every call. */
int32_t session_send(const uint8_t *card, size_t card_length,
                     const uint8_t *input, size_t input_length,
                     uint8_t *output, size_t output_length);
int32_t session_receive(const uint8_t *card, size_t card_length,
                        const uint8_t *input, size_t input_length,
                        uint8_t *output, size_t output_length);

#endif
