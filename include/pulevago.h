/*
 * Pulevago: the serial, I2C and USB bindings of MCTP, proved. Link crates/pulevago/out/libpulevago.a, which `rt lib` in
 * crates/pulevago builds (x86-64, System V calls).
 *
 * Every function returns one of the numbers below. What it gives beside that it writes through the pointers to single values. A refusal, which is
 * any number but PULEVAGO_DONE, writes through none of them and changes no byte of an output; what it does to a receiver's state is said there.
 * On success the bytes of an output beyond the written part keep their content. A part of an input is a place in it and a length.
 *
 * What a caller owes, and nothing here can test: each pointer is not null, also where its length is 0, and points to as many bytes as its length
 * says; what a call may write (each pointer without const) overlaps nothing else that the call is given. Calls keep nothing of what they were lent.
 * Nothing is global: calls on different memory may run at the same time.
 */
#ifndef PULEVAGO_H
#define PULEVAGO_H

#include <stdbool.h>
#include <stddef.h>
#include <stdint.h>

#ifdef __cplusplus
extern "C" {
#endif

/* The numbers. */
#define PULEVAGO_DONE 0u
#define PULEVAGO_BAD_LENGTH 1u    /* serial packet out is under 5 or over 255 bytes */
#define PULEVAGO_SHORT_OUTPUT 2u  /* output shorter than the frame; for take, shorter than 255 bytes */
#define PULEVAGO_BAD_ARGUMENT 3u  /* I2C payload over 254 bytes, or output shorter than the frame */
#define PULEVAGO_BAD_ADDRESS 4u   /* I2C: own or destination address over 127 */
#define PULEVAGO_INVALID_INPUT 5u /* no I2C frame */
#define PULEVAGO_BAD_PACKET 6u    /* USB packet over 251 bytes, or lent header not 4 bytes */
#define PULEVAGO_RX_FAILURE 7u    /* no USB packet there */
#define PULEVAGO_NO_ROOM 8u       /* USB transfer: no room for header and packet */
#define PULEVAGO_INCONSISTENT 9u  /* the bytes lent as a receiver's state are none */

/* The size of a receiver's state. */
#define PULEVAGO_RECEIVER_SIZE 263u

/* The longest serial frame, the longest packet that a receiver hands out, the longest I2C frame, a USB header, the largest USB transfer. */
#define PULEVAGO_FRAME_MAX 516u
#define PULEVAGO_PACKET_MAX 255u
#define PULEVAGO_I2C_FRAME_MAX 259u
#define PULEVAGO_USB_HEADER_SIZE 4u
#define PULEVAGO_USB_TRANSFER_MAX 512u

/* Why pulevago_receiver_take stopped; if several hold, the first of these. */
#define PULEVAGO_TOOK_PACKET 0u
#define PULEVAGO_INPUT_ENDED 1u
#define PULEVAGO_ALLOWANCE_SPENT 2u

/* ---- check values ---- */

/* The frame check of DSP0253 over the input, to *check: 0x6f91 for the ASCII digits 123456789. Sent high byte first. Always 0. */
uint32_t pulevago_frame_check(const uint8_t *input, size_t input_length, uint16_t *check);

/* The same, going on from the check of what came before; 0xffff where nothing did. Always 0. */
uint32_t pulevago_frame_check_from(uint16_t before, const uint8_t *input, size_t input_length, uint16_t *check);

/* The packet error code of SMBus over the input, to *check: 0xf4 for the ASCII digits 123456789. Always 0. */
uint32_t pulevago_pec(const uint8_t *input, size_t input_length, uint8_t *check);

/* The same, going on from the code of what came before; 0 where nothing did. Always 0. */
uint32_t pulevago_pec_from(uint8_t before, const uint8_t *input, size_t input_length, uint8_t *check);

/* ---- serial (DSP0253) ---- */

/* Writes the packet's frame at the output's start and its length to *written. 1: the packet is under 5 or over 255 bytes. Then 2: the output is
 * shorter than the frame, which has at most PULEVAGO_FRAME_MAX bytes. */
uint32_t pulevago_frame_to_serial(const uint8_t *packet, size_t packet_length, uint8_t *out, size_t out_length, size_t *written);

/* A receiver's state is PULEVAGO_RECEIVER_SIZE bytes that the caller keeps and lends. It may be copied, saved and moved as bytes; all zero is a fresh
 * one. In each of the calls below a state of another size gives 9 and is left unchanged, and bytes of that size that are no state give 9; where the
 * state is lent to be changed, a fresh one stands there then. States that these calls leave are never refused. */

/* Makes the state a fresh one, whatever stood there. 9: another size. */
uint32_t pulevago_receiver_fresh(uint8_t *state, size_t state_length);

/* Whether the bytes are a state: 0, or 9. Changes nothing. */
uint32_t pulevago_receiver_consistent(const uint8_t *state, size_t state_length);

/* Feeds one byte. Where it ends a packet, *length is the packet's, from 1 to 255, and it stands in the state from *place on until the next byte is
 * fed; else both are 0. 9: no state; *place and *length are unchanged, and the byte is not looked at. */
uint32_t pulevago_receiver_step(uint8_t *state, size_t state_length, uint8_t byte, size_t *place, size_t *length);

/* Feeds bytes of the input, at most `allowance` of them, until one ends a packet, the input ends or the allowance is spent. *reason says which,
 * *taken is how many bytes were fed, and *length the packet's length, which is copied to the output's start; without a packet *length is 0 and the
 * output is unchanged. Go on with the input from *taken on. 9: no state. Then 2: the output is under PULEVAGO_PACKET_MAX bytes; the state is
 * unchanged. After both no byte was fed. */
uint32_t pulevago_receiver_take(uint8_t *state, size_t state_length, const uint8_t *input, size_t input_length, size_t allowance, uint8_t *out,
                                size_t out_length, uint8_t *reason, size_t *taken, size_t *length);

/* ---- I2C (DSP0237) ---- */

/* Writes the payload's frame, from our own address to a destination, at the output's start and its length to *written: 4 bytes more than the payload,
 * 5 with a packet error code. 4: an address is over 127. Then 3: the payload is over 254 bytes, or the output shorter than the frame. */
uint32_t pulevago_i2c_encode(uint8_t own, uint8_t dest, const uint8_t *payload, size_t payload_length, uint8_t *out, size_t out_length, bool pec,
                             size_t *written);

/* The source address of a frame to *source, and its payload as a part of the input to *place and *length. With pec the last byte is the packet error
 * code. 5: the code is wrong, the header is cut off, its byte count is not that of the input, or its command code is not 0x0f. */
uint32_t pulevago_i2c_decode(const uint8_t *input, size_t input_length, bool pec, uint8_t *source, size_t *place, size_t *length);

/* ---- USB (DSP0283) ---- */

/* Writes the header of a packet of `size` bytes. 6: the packet is over 251 bytes, or the lent header has not 4. */
uint32_t pulevago_usb_header(size_t size, uint8_t *out, size_t out_length);

/* The packet behind the header at the input's start to *place and *length, and what is behind it to *rest_place and *rest_length, as parts of the
 * input. 7: the header is cut off, does not begin with 1a b4, or its length byte is under 4 or over the input's length. */
uint32_t pulevago_usb_decode(const uint8_t *input, size_t input_length, size_t *place, size_t *length, size_t *rest_place, size_t *rest_length);

/* The packet at *at in a transfer, as a part of it, to *place and *length; *found is then 1, and *at moves behind it. At the transfer's end *found is 0,
 * the part empty, and *at stays. Begin with *at 0 and call until *found is 0. 7: no packet stands there, or *at is beyond the transfer; nothing is
 * written, so each later call says the same. */
uint32_t pulevago_usb_walk(const uint8_t *transfer, size_t transfer_length, size_t *at, uint8_t *found, size_t *place, size_t *length);

/* Appends the packet behind its header to the *used bytes of a transfer in the output, and adds them to *used. 6: the packet is over 251 bytes. Then 8:
 * *used is over the output's length or over 512, or fewer bytes are left below the smaller of the two than header and packet have. */
uint32_t pulevago_usb_append(const uint8_t *packet, size_t packet_length, uint8_t *out, size_t out_length, size_t *used);

#ifdef __cplusplus
}
#endif

#endif
