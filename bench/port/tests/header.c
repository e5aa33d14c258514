/* Every function of ad9959.h, called from C on an example of document 01 and on something that it refuses. */
#include "../ad9959.h"
#include <stdio.h>
#include <string.h>

static int failures;
#define CHECK(what) do { if (!(what)) { printf("header.c:%d: %s\n", __LINE__, #what); failures++; } } while (0)

int main(void) {
    uint8_t bytes[32] = {0};
    size_t length = 0, count = 9;
    uint32_t words[8] = {0};
    CHECK(ad9959_push(3, &length, bytes, 1, AD9959_HAS_WORD, 0x01020304, 0, 0) == AD9959_OK && length == 7);
    CHECK(ad9959_push(3, &length, bytes, 1, 8, 0, 0, 0) == AD9959_WORD && length == 7);
    CHECK(ad9959_finalize(3, &length, bytes, words, 2, &count) == AD9959_ROOM && count == 0 && length == 7);
    CHECK(ad9959_finalize(3, &length, bytes, words, 8, &count) == AD9959_OK && count == 3 && length == 12 && words[2] == 0xf6000000);

    uint32_t addresses[4], values[4], image[91] = {0};
    uint8_t out[12];
    CHECK(ad9959_decode(bytes, length, addresses, 4, values, 4, &count) == AD9959_OK && count == 4 && addresses[1] == 4 && values[1] == 0x01020304);
    CHECK(ad9959_decode(bytes, 1, addresses, 4, values, 4, &count) == AD9959_SHORT && count == 0);
    CHECK(ad9959_encode(addresses, 4, values, 4, 4, out, 12, &count) == AD9959_OK && count == 12 && !memcmp(out, bytes, 12));
    CHECK(ad9959_encode(addresses, 4, values, 4, 4, out, 11, &count) == AD9959_ROOM && count == 0);
    CHECK(ad9959_feed(bytes, length, image, 91) == AD9959_OK && image[0] == 0xf6 && image[4] == 0x01020304);
    CHECK(ad9959_feed(bytes, length, image, 90) == AD9959_ROOM);

    float system, ratio, achieved, value;
    uint32_t vco, word;
    CHECK(ad9959_clock(125e6f, 4, &system, &vco, &ratio) == AD9959_OK && system == 500e6f && vco == 1);
    CHECK(ad9959_clock(10e6f, 4, &system, &vco, &ratio) == AD9959_BOUNDS && system == 0 && vco == 0 && ratio == 0);
    CHECK(ad9959_frequency(16, 1e6f, &word, &achieved) == AD9959_OK && word == 16000000 && achieved == 1e6f);
    CHECK(ad9959_frequency(7, 1e6f, &word, &achieved) == AD9959_NOT_READY && word == 0);
    CHECK(ad9959_phase(0.25f, &word, &achieved) == AD9959_OK && word == 0x1000 && achieved == 0.25f);
    CHECK(ad9959_amplitude(1, &word, &achieved) == AD9959_OK && word == 0 && achieved == 1);
    CHECK(ad9959_amplitude(2, &word, &achieved) == AD9959_BOUNDS);
    CHECK(ad9959_read_frequency(16, 16000000, &value) == AD9959_OK && value == 1e6f);
    CHECK(ad9959_read_phase(0x10000, &value) == AD9959_WORD && value == 0);
    CHECK(ad9959_read_amplitude(0x1200, &value) == AD9959_OK && value == 0.5f);
    if (!failures) printf("every function of ad9959.h called\n");
    return failures != 0;
}
