/* The C boundary of the proved AD9959 driver. Written by hand from crates/boundary_c/src; tests/header.c calls every function.
 *
 * Each function returns 0, which is Ok, or the number of a refusal (crates/registers/specs/Refusals.antt), and asks nothing of its caller but that a
 * pointer is good for what its type says: one value, 32 bytes, or so many elements. Pointers that are written through must not overlap. On a
 * refusal the lent bytes, words and length stay, and every other result is zero. */
#ifndef AD9959_H
#define AD9959_H
#include <stddef.h>
#include <stdint.h>

enum ad9959_answer {
    AD9959_OK, AD9959_INTERFACE, AD9959_CHECK, AD9959_BOUNDS, AD9959_PIN, AD9959_FREQUENCY, AD9959_MASK,
    AD9959_MODE, AD9959_WORD, AD9959_ROOM, AD9959_ADDRESS, AD9959_SHORT, AD9959_NOT_READY, AD9959_OVER
};

/* presence: bits of the fields that are given */
enum { AD9959_HAS_WORD = 1, AD9959_HAS_PHASE = 2, AD9959_HAS_ACR = 4 };

/* A profile is a mode, a length (0 at first) and 32 bytes. */
uint32_t ad9959_push(uint32_t mode, size_t *length, uint8_t bytes[32], uint32_t mask, uint32_t presence, int32_t word, uint32_t phase, uint32_t acr);
uint32_t ad9959_finalize(uint32_t mode, size_t *length, uint8_t bytes[32], uint32_t *words, size_t words_length, size_t *count);

/* Streams of register writes, and the image of 91 words. */
uint32_t ad9959_decode(const uint8_t *bytes, size_t bytes_length, uint32_t *addresses, size_t addresses_length, uint32_t *values, size_t values_length, size_t *count);
uint32_t ad9959_encode(const uint32_t *addresses, size_t addresses_length, const uint32_t *values, size_t values_length, size_t count, uint8_t *bytes, size_t bytes_length, size_t *length);
uint32_t ad9959_feed(const uint8_t *bytes, size_t bytes_length, uint32_t *image, size_t image_length);

/* From floats to register words, with the value achieved, and back. ratio is ad9959_clock's. */
uint32_t ad9959_clock(float reference, uint32_t multiplier, float *system, uint32_t *vco, float *ratio);
uint32_t ad9959_frequency(float ratio, float frequency, uint32_t *word, float *achieved);
uint32_t ad9959_phase(float phase, uint32_t *word, float *achieved);
uint32_t ad9959_amplitude(float amplitude, uint32_t *acr, float *achieved);
uint32_t ad9959_read_frequency(float ratio, uint32_t word, float *value);
uint32_t ad9959_read_phase(uint32_t word, float *value);
uint32_t ad9959_read_amplitude(uint32_t acr, float *value);
#endif
