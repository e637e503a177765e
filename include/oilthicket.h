/* The calls of the classroom boot board, from the static library that `tools/archive` makes.
 *
 * What is lent belongs to the caller. Each pointer stands before so many bytes as the length behind it
 * says, none is NULL, and no two of them share a byte. Any lengths may be lent: the answer to wrong
 * ones is a number, and nothing has changed then. Nothing is kept between calls but in what is lent.
 *
 * A session is lent in 280 bytes, numbers high byte first:
 *   0 carrier, 1 step, 2 to 9 taken, 10 to 17 expected, 18 to 21 address, 22 speed, 23 to 279 staged.
 * A caller need not look into them: power on writes them, and each call that is accepted hands them on.
 */
#ifndef OILTHICKET_H
#define OILTHICKET_H

#include <stddef.h>
#include <stdint.h>

#ifdef __cplusplus
extern "C" {
#endif

/* The bytes of a session, and of the three memories. */
#define OILTHICKET_SESSION_BYTES 280
#define OILTHICKET_FLASH_BYTES 32768
#define OILTHICKET_SRAM_BYTES 8192
#define OILTHICKET_USD_BYTES 64

/* The room that the reply to a UART byte must have, and that to a CAN frame. A slice of bytes is taken as
 * far as the first is left for each. */
#define OILTHICKET_UART_REPLY_BYTES 257
#define OILTHICKET_CAN_REPLY_BYTES 363

/* The bytes of a CAN frame: ID (two bytes, high first), DLC, eight data bytes. */
#define OILTHICKET_FRAME_BYTES 11

/* The numbers that calls give: accepted, and the five causes in the order in which they are tested. */
#define OILTHICKET_ACCEPTED 0
#define OILTHICKET_WRONG_MEMORY 1
#define OILTHICKET_SHORT_REPLY 2
#define OILTHICKET_BAD_FRAME 3
#define OILTHICKET_UNSOUND_SESSION 4
#define OILTHICKET_BOARD_RUNNING 5

/* The numbers of the reasons for a NACK, in the order in which they are tested; 0 where there is none. */
#define OILTHICKET_NO_REASON 0
#define OILTHICKET_BAD_COMPLEMENT_OR_DLC 1
#define OILTHICKET_UNKNOWN_COMMAND 2
#define OILTHICKET_ACCESS_PROTECTED 3
#define OILTHICKET_OTHER_ID_OR_EMPTY_FRAME 4
#define OILTHICKET_BAD_CHECKSUM 5
#define OILTHICKET_BAD_ADDRESS 6
#define OILTHICKET_BAD_COUNT_OR_RANGE 7
#define OILTHICKET_BAD_SECTOR_NUMBER 8
#define OILTHICKET_WRITE_PROTECTED_SECTOR 9
#define OILTHICKET_UNSUPPORTED_ERASE 10
#define OILTHICKET_BAD_SPEED 11

/* Powers the board on: writes a fresh session into a slice of 280 bytes and gives 0. A slice of another
 * length stays as it was, and the answer is 4. The memories are not touched. */
uint8_t oilthicket_power_on(uint8_t *session, size_t session_length);

/* Takes one UART byte. Gives the number of the call, writes the length of the reply to *length, and the
 * reply to the front of the buffer; the session then holds the next one. If a NACK is in the reply, its
 * reason is written to *reason, and to *place which byte of the command brought it, from 1; else both are
 * 0. A refused call has length, reason and place 0 and leaves every other byte that was lent. A session's
 * slice that is not 280 bytes long is an unsound session. */
uint8_t oilthicket_take_byte(uint8_t *session, size_t session_length,
                             uint8_t byte,
                             uint8_t *flash, size_t flash_length,
                             uint8_t *sram, size_t sram_length,
                             uint8_t *usd, size_t usd_length,
                             uint8_t *buffer, size_t buffer_length,
                             size_t *length, uint8_t *reason, uint16_t *place);

/* Takes a slice of UART bytes, one behind the other, and joins their replies at the front of the buffer.
 * Gives the number of the call, writes how many bytes were taken to *taken and the length of the joined
 * replies to *length; session, memories and replies are those of a call for each byte taken. It stops
 * before a byte for which fewer than 257 bytes of the buffer are left, even if that byte would bring no
 * reply; the rest may then be given to another call, with the whole buffer. It stops behind a byte that
 * makes the board run; another call for the rest gives 5. The number is 0 in both cases. If NACKs are in
 * the replies, the reason of the last one is written to *reason, and to *place which byte of its own command
 * brought it, from 1; else both are 0. A buffer of any length may be lent: 2 is never given, and with one of
 * under 257 bytes no byte is ever taken. The other causes of a UART byte are tested first, in their order,
 * even for no bytes at all; a refused call has taken, length, reason and place 0 and leaves every other byte
 * that was lent. A session's slice that is not 280 bytes long is an unsound session. */
uint8_t oilthicket_take_bytes(uint8_t *session, size_t session_length,
                              const uint8_t *bytes, size_t bytes_length,
                              uint8_t *flash, size_t flash_length,
                              uint8_t *sram, size_t sram_length,
                              uint8_t *usd, size_t usd_length,
                              uint8_t *buffer, size_t buffer_length,
                              size_t *taken, size_t *length, uint8_t *reason, uint16_t *place);

/* Takes one CAN frame, of 11 bytes, as a UART byte is taken. The reply is frames of 11 bytes, one behind
 * the other. The place of a NACK is the count of bytes that were gathered before the frame. */
uint8_t oilthicket_take_frame(uint8_t *session, size_t session_length,
                              const uint8_t *frame, size_t frame_length,
                              uint8_t *flash, size_t flash_length,
                              uint8_t *sram, size_t sram_length,
                              uint8_t *usd, size_t usd_length,
                              uint8_t *buffer, size_t buffer_length,
                              size_t *length, uint8_t *reason, uint16_t *place);

#ifdef __cplusplus
}
#endif

#endif
