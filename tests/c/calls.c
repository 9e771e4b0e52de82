/*
 * Calls every function of include/pulevago.h, on input that it takes and on input that it refuses, and compares with answers typed from document 01.
 * On the first difference it says the line and exits with 1; else it prints how many answers it compared. The same text is C99 and C++: tests/callers
 * compiles and runs it as both.
 */
#include "pulevago.h"

#include "lent.h"

#include <string.h>

/* ---- case A ---- */

static const uint8_t packet_a[5] = {0x01, 0x0a, 0x09, 0xc8, 0x7e};
static const uint8_t frame_a[12] = {0x7e, 0x01, 0x05, 0x01, 0x0a, 0x09, 0xc8, 0x7d, 0x5e, 0x2d, 0xba, 0x7e};
static const uint8_t zeros[PULEVAGO_RECEIVER_SIZE + 1] = {0};

/* ---- the header's numbers ---- */

static void numbers(void)
{
    WANT(PULEVAGO_DONE == 0 && PULEVAGO_BAD_LENGTH == 1 && PULEVAGO_SHORT_OUTPUT == 2 && PULEVAGO_BAD_ARGUMENT == 3);
    WANT(PULEVAGO_BAD_ADDRESS == 4 && PULEVAGO_INVALID_INPUT == 5 && PULEVAGO_BAD_PACKET == 6 && PULEVAGO_RX_FAILURE == 7);
    WANT(PULEVAGO_NO_ROOM == 8 && PULEVAGO_INCONSISTENT == 9);
    WANT(PULEVAGO_RECEIVER_SIZE == 263 && PULEVAGO_FRAME_MAX == 516 && PULEVAGO_PACKET_MAX == 255);
    WANT(PULEVAGO_I2C_FRAME_MAX == 259 && PULEVAGO_USB_HEADER_SIZE == 4 && PULEVAGO_USB_TRANSFER_MAX == 512);
    WANT(PULEVAGO_TOOK_PACKET == 0 && PULEVAGO_INPUT_ENDED == 1 && PULEVAGO_ALLOWANCE_SPENT == 2);
}

/* ---- check values: case M, in one piece and in two ---- */

static void check_values(void)
{
    const uint8_t digits[9] = {0x31, 0x32, 0x33, 0x34, 0x35, 0x36, 0x37, 0x38, 0x39};
    uint16_t check[3] = SHORT_THREE;
    uint8_t code[3] = NARROW_THREE;

    WANT(pulevago_frame_check(digits, 9, &check[1]) == 0 && short_is(check, 0x6f91));
    WANT(pulevago_frame_check_from(0xffff, digits, 4, &check[1]) == 0);
    WANT(pulevago_frame_check_from(check[1], digits + 4, 5, &check[1]) == 0 && short_is(check, 0x6f91));
    WANT(pulevago_frame_check_from(0x6f91, digits, 0, &check[1]) == 0 && short_is(check, 0x6f91));
    WANT(pulevago_frame_check(digits, 0, &check[1]) == 0 && short_is(check, 0xffff));

    WANT(pulevago_pec(digits, 9, &code[1]) == 0 && narrow_is(code, 0xf4));
    WANT(pulevago_pec_from(0, digits, 4, &code[1]) == 0);
    WANT(pulevago_pec_from(code[1], digits + 4, 5, &code[1]) == 0 && narrow_is(code, 0xf4));
    WANT(pulevago_pec_from(0xf4, digits, 0, &code[1]) == 0 && narrow_is(code, 0xf4));
    WANT(pulevago_pec(digits, 0, &code[1]) == 0 && narrow_is(code, 0));
}

/* ---- the frame writer: cases A, C, D ---- */

static void frames(void)
{
    size_t written = WIDE;
    WANT(pulevago_frame_to_serial(packet_a, 4, lend(), 516, &written) == 1 && wrote_nothing() && written == WIDE);
    WANT(pulevago_frame_to_serial(zeros, 256, lend(), 516, &written) == 1 && wrote_nothing() && written == WIDE);
    WANT(pulevago_frame_to_serial(packet_a, 4, lend(), 0, &written) == 1 && wrote_nothing() && written == WIDE);
    WANT(pulevago_frame_to_serial(packet_a, 5, lend(), 11, &written) == 2 && wrote_nothing() && written == WIDE);
    WANT(pulevago_frame_to_serial(packet_a, 5, lend(), 12, &written) == 0 && wrote(0, frame_a, 12) && written == 12);
    WANT(pulevago_frame_to_serial(packet_a, 5, lend(), 516, &written) == 0 && wrote(0, frame_a, 12) && written == 12);
    WANT(pulevago_frame_to_serial(zeros, 255, lend(), 516, &written) == 0 && written == 261);
}

/* ---- the receiver ---- */

/* Feeds a stream to a fresh state byte by byte. The number of packets; the last one's place and length stand in `place` and `length`. */
static unsigned feed(uint8_t *state, const uint8_t *stream, size_t stream_length, size_t *place, size_t *length)
{
    unsigned packets = 0;
    WANT(pulevago_receiver_fresh(state, PULEVAGO_RECEIVER_SIZE) == 0);
    for (size_t i = 0; i < stream_length; i += 1) {
        *place = WIDE;
        *length = WIDE;
        WANT(pulevago_receiver_step(state, PULEVAGO_RECEIVER_SIZE, stream[i], place, length) == 0);
        WANT(*length <= PULEVAGO_PACKET_MAX && (*length > 0 || *place == 0));
        WANT(pulevago_receiver_consistent(state, PULEVAGO_RECEIVER_SIZE) == 0);
        packets += *length > 0 ? 1u : 0u;
    }
    return packets;
}

/* Cases A, B, E, F, N. */
static void streams(void)
{
    const uint8_t wrong_check[12] = {0x7e, 0x01, 0x05, 0x01, 0x0a, 0x09, 0xc8, 0x7d, 0x5e, 0x2d, 0xbb, 0x7e};
    const uint8_t zero_count[3] = {0x7e, 0x01, 0x00};
    const uint8_t bad_escape[5] = {0x7e, 0x01, 0x05, 0x7d, 0x41};
    const uint8_t behind_noise[11] = {0x7e, 0x01, 0x05, 0x01, 0x0a, 0x09, 0xc8, 0x00, 0x7e, 0x7e, 0x7e};
    uint8_t stream[23];
    uint8_t state[PULEVAGO_RECEIVER_SIZE];
    size_t place = 0;
    size_t length = 0;

    memset(state, 0xff, sizeof state);
    WANT(feed(state, frame_a, 12, &place, &length) == 1 && length == 5 && memcmp(state + place, packet_a, 5) == 0);
    WANT(feed(state, wrong_check, 12, &place, &length) == 0);
    WANT(feed(state, zero_count, 3, &place, &length) == 0);
    WANT(feed(state, bad_escape, 5, &place, &length) == 0);

    /* behind two flags case A's frame is not heard, behind three it is */
    memcpy(stream, behind_noise, 11);
    memcpy(stream + 10, frame_a, 12);
    WANT(feed(state, stream, 22, &place, &length) == 0);
    memcpy(stream + 11, frame_a, 12);
    WANT(feed(state, stream, 23, &place, &length) == 1 && length == 5 && memcmp(state + place, packet_a, 5) == 0);
}

/* Bytes that are no state, and states of another size. */
static void no_states(void)
{
    const size_t sizes[3] = {0, PULEVAGO_RECEIVER_SIZE - 1, PULEVAGO_RECEIVER_SIZE + 1};
    uint8_t state[PULEVAGO_RECEIVER_SIZE + 1];
    uint8_t reason[3] = NARROW_THREE;
    size_t place = WIDE;
    size_t length = WIDE;
    size_t taken = WIDE;

    memset(state, 0xff, sizeof state);
    WANT(pulevago_receiver_consistent(state, PULEVAGO_RECEIVER_SIZE) == 9 && state[0] == 0xff);
    WANT(pulevago_receiver_step(state, PULEVAGO_RECEIVER_SIZE, 0x7e, &place, &length) == 9 && place == WIDE && length == WIDE);
    WANT(memcmp(state, zeros, PULEVAGO_RECEIVER_SIZE) == 0 && state[PULEVAGO_RECEIVER_SIZE] == 0xff);
    memset(state, 0xff, sizeof state);
    WANT(pulevago_receiver_take(state, PULEVAGO_RECEIVER_SIZE, frame_a, 12, 12, lend(), 0, &reason[1], &taken, &length) == 9);
    WANT(wrote_nothing() && narrow_is(reason, 0xd7) && taken == WIDE && length == WIDE);
    WANT(memcmp(state, zeros, PULEVAGO_RECEIVER_SIZE) == 0 && state[PULEVAGO_RECEIVER_SIZE] == 0xff);

    for (size_t i = 0; i < 3; i += 1) {
        const size_t size = sizes[i];
        memset(state, 0, sizeof state);
        WANT(pulevago_receiver_consistent(state, size) == 9);
        state[0] = 0x55;
        WANT(pulevago_receiver_fresh(state, size) == 9 && state[0] == 0x55);
        WANT(pulevago_receiver_step(state, size, 0x7e, &place, &length) == 9 && place == WIDE && length == WIDE && state[0] == 0x55);
        WANT(pulevago_receiver_take(state, size, frame_a, 12, 12, lend(), 255, &reason[1], &taken, &length) == 9);
        WANT(wrote_nothing() && narrow_is(reason, 0xd7) && taken == WIDE && length == WIDE && state[0] == 0x55);
        WANT(memcmp(state + 1, zeros, PULEVAGO_RECEIVER_SIZE) == 0);
    }
}

/* The taker: each reason, and a short output. */
static void takes(void)
{
    uint8_t state[PULEVAGO_RECEIVER_SIZE] = {0};
    uint8_t reason[3] = NARROW_THREE;
    size_t taken = WIDE;
    size_t length = WIDE;

    WANT(pulevago_receiver_take(state, sizeof state, frame_a, 12, 12, lend(), 254, &reason[1], &taken, &length) == 2);
    WANT(wrote_nothing() && narrow_is(reason, 0xd7) && taken == WIDE && length == WIDE);
    WANT(memcmp(state, zeros, sizeof state) == 0);

    WANT(pulevago_receiver_take(state, sizeof state, frame_a, 12, 10, lend(), 255, &reason[1], &taken, &length) == 0);
    WANT(wrote_nothing() && narrow_is(reason, 2) && taken == 10 && length == 0);
    WANT(pulevago_receiver_take(state, sizeof state, frame_a + 10, 1, 1, lend(), 255, &reason[1], &taken, &length) == 0);
    WANT(wrote_nothing() && narrow_is(reason, 1) && taken == 1 && length == 0);
    WANT(pulevago_receiver_take(state, sizeof state, frame_a + 11, 1, SIZE_MAX, lend(), 255, &reason[1], &taken, &length) == 0);
    WANT(wrote(0, packet_a, 5) && narrow_is(reason, 0) && taken == 1 && length == 5);
    WANT(pulevago_receiver_take(state, sizeof state, frame_a, 0, SIZE_MAX, lend(), 255, &reason[1], &taken, &length) == 0);
    WANT(wrote_nothing() && narrow_is(reason, 1) && taken == 0 && length == 0);
}

/* ---- I2C: cases G, H, I, and a packet error code ---- */

static void i2c(void)
{
    const uint8_t frame_g[9] = {0x3a, 0x0f, 0x06, 0x41, 0x01, 0x0a, 0x09, 0xc8, 0x7e};
    const uint8_t frame_h[4] = {0x3a, 0x0f, 0x01, 0x41};
    const uint8_t frame_i[4] = {0x3a, 0x0f, 0x02, 0x41};
    uint8_t coded[10];
    uint8_t source[3] = NARROW_THREE;
    size_t written = WIDE;
    size_t place = WIDE;
    size_t length = WIDE;

    WANT(pulevago_i2c_encode(0x80, 0x1d, packet_a, 5, lend(), 0, false, &written) == 4 && wrote_nothing() && written == WIDE);
    WANT(pulevago_i2c_encode(0x20, 0x80, packet_a, 5, lend(), 9, false, &written) == 4 && wrote_nothing() && written == WIDE);
    WANT(pulevago_i2c_encode(0x20, 0x1d, packet_a, 5, lend(), 8, false, &written) == 3 && wrote_nothing() && written == WIDE);
    WANT(pulevago_i2c_encode(0x20, 0x1d, packet_a, 5, lend(), 9, true, &written) == 3 && wrote_nothing() && written == WIDE);
    WANT(pulevago_i2c_encode(0x20, 0x1d, zeros, 255, lend(), 600, false, &written) == 3 && wrote_nothing() && written == WIDE);
    WANT(pulevago_i2c_encode(0x20, 0x1d, packet_a, 5, lend(), 9, false, &written) == 0 && wrote(0, frame_g, 9) && written == 9);
    memcpy(coded, frame_g, 9);
    WANT(pulevago_pec(frame_g, 9, &coded[9]) == 0);
    WANT(pulevago_i2c_encode(0x20, 0x1d, packet_a, 5, lend(), 259, true, &written) == 0 && wrote(0, coded, 10) && written == 10);

    WANT(pulevago_i2c_decode(frame_i, 4, false, &source[1], &place, &length) == 5);
    WANT(pulevago_i2c_decode(frame_i, 0, true, &source[1], &place, &length) == 5);
    WANT(pulevago_i2c_decode(coded, 10, false, &source[1], &place, &length) == 5);
    coded[9] ^= 1u;
    WANT(pulevago_i2c_decode(coded, 10, true, &source[1], &place, &length) == 5);
    WANT(narrow_is(source, 0xd7) && place == WIDE && length == WIDE);
    coded[9] ^= 1u;
    WANT(pulevago_i2c_decode(coded, 10, true, &source[1], &place, &length) == 0);
    WANT(narrow_is(source, 0x20) && place == 4 && length == 5);
    WANT(pulevago_i2c_decode(frame_h, 4, false, &source[1], &place, &length) == 0);
    WANT(narrow_is(source, 0x20) && place == 4 && length == 0);
}

/* ---- USB: cases J, K, L, and a transfer of two packets ---- */

static void usb(void)
{
    const uint8_t header_l[4] = {0x1a, 0xb4, 0x00, 0xff};
    const uint8_t header_k[4] = {0x1a, 0xb4, 0x00, 0x03};
    const uint8_t two[13] = {0x1a, 0xb4, 0x00, 0x04, 0x1a, 0xb4, 0x00, 0x09, 0x01, 0x0a, 0x09, 0xc8, 0x7e};
    size_t place = WIDE;
    size_t length = WIDE;
    size_t rest_place = WIDE;
    size_t rest_length = WIDE;

    WANT(pulevago_usb_header(252, lend(), 4) == 6 && wrote_nothing());
    WANT(pulevago_usb_header(SIZE_MAX, lend(), 4) == 6 && wrote_nothing());
    WANT(pulevago_usb_header(251, lend(), 3) == 6 && wrote_nothing());
    WANT(pulevago_usb_header(251, lend(), 5) == 6 && wrote_nothing());
    WANT(pulevago_usb_header(251, lend(), 4) == 0 && wrote(0, header_l, 4));

    WANT(pulevago_usb_decode(header_k, 4, &place, &length, &rest_place, &rest_length) == 7);
    WANT(pulevago_usb_decode(header_l, 4, &place, &length, &rest_place, &rest_length) == 7);
    WANT(pulevago_usb_decode(two, 0, &place, &length, &rest_place, &rest_length) == 7);
    WANT(place == WIDE && length == WIDE && rest_place == WIDE && rest_length == WIDE);
    WANT(pulevago_usb_decode(two, 4, &place, &length, &rest_place, &rest_length) == 0);
    WANT(place == 4 && length == 0 && rest_place == 4 && rest_length == 0);
    WANT(pulevago_usb_decode(two + 4, 9, &place, &length, &rest_place, &rest_length) == 0);
    WANT(place == 4 && length == 5 && rest_place == 9 && rest_length == 0);
    WANT(pulevago_usb_decode(two, 13, &place, &length, &rest_place, &rest_length) == 0);
    WANT(place == 4 && length == 0 && rest_place == 4 && rest_length == 9);
}

static void transfers(void)
{
    const uint8_t two[13] = {0x1a, 0xb4, 0x00, 0x04, 0x1a, 0xb4, 0x00, 0x09, 0x01, 0x0a, 0x09, 0xc8, 0x7e};
    uint8_t found[3] = NARROW_THREE;
    size_t at = 14;
    size_t place = WIDE;
    size_t length = WIDE;
    size_t used = 0;

    WANT(pulevago_usb_walk(two, 13, &at, &found[1], &place, &length) == 7 && at == 14);
    at = 1;
    WANT(pulevago_usb_walk(two, 13, &at, &found[1], &place, &length) == 7 && at == 1);
    WANT(narrow_is(found, 0xd7) && place == WIDE && length == WIDE);
    at = 0;
    WANT(pulevago_usb_walk(two, 13, &at, &found[1], &place, &length) == 0);
    WANT(narrow_is(found, 1) && place == 4 && length == 0 && at == 4);
    WANT(pulevago_usb_walk(two, 13, &at, &found[1], &place, &length) == 0);
    WANT(narrow_is(found, 1) && place == 8 && length == 5 && at == 13);
    WANT(pulevago_usb_walk(two, 13, &at, &found[1], &place, &length) == 0);
    WANT(narrow_is(found, 0) && length == 0 && at == 13);

    WANT(pulevago_usb_append(zeros, 252, lend(), 3, &used) == 6 && wrote_nothing() && used == 0);
    WANT(pulevago_usb_append(packet_a, 5, lend(), 8, &used) == 8 && wrote_nothing() && used == 0);
    used = 508;
    WANT(pulevago_usb_append(packet_a, 1, lend(), 600, &used) == 8 && wrote_nothing() && used == 508);
    used = SIZE_MAX;
    WANT(pulevago_usb_append(packet_a, 5, lend(), 512, &used) == 8 && wrote_nothing() && used == SIZE_MAX);
    used = 0;
    WANT(pulevago_usb_append(packet_a, 0, lend(), 512, &used) == 0 && wrote(0, two, 4) && used == 4);
    WANT(pulevago_usb_append(packet_a, 5, lend(), 13, &used) == 0 && wrote(4, two + 4, 9) && used == 13);
}

int main(void)
{
    numbers();
    check_values();
    frames();
    streams();
    no_states();
    takes();
    i2c();
    usb();
    transfers();
    printf("%u\n", compared);
    return 0;
}
