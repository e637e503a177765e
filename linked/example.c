/* Connects on UART, asks for the version and sends a command that does not exist, then powers the board on
 * again and connects on CAN; powers it on once more and says the same on UART at once. Prints what is sent,
 * what the board answers, and why it refuses. */
#include <stdio.h>
#include <string.h>

#include "oilthicket.h"

static uint8_t session[OILTHICKET_SESSION_BYTES];
static uint8_t flash[OILTHICKET_FLASH_BYTES];
static uint8_t sram[OILTHICKET_SRAM_BYTES];
static uint8_t usd[OILTHICKET_USD_BYTES];
static uint8_t buffer[OILTHICKET_CAN_REPLY_BYTES];

/* Prints bytes, each behind a space. */
static void print(const uint8_t *bytes, size_t length)
{
    for (size_t i = 0; i < length; i++)
        printf(" %02X", bytes[i]);
}

/* What a call writes beside the reply. */
static size_t length;
static uint8_t reason;
static uint16_t place;

/* Prints what was sent, what was answered and why a NACK came; gives whether the call was accepted. */
static int answered(const uint8_t *sent, size_t sent_length, uint8_t number)
{
    print(sent, sent_length);
    printf(" >");
    print(buffer, length);
    if (reason != OILTHICKET_NO_REASON)
        printf(" ! %u %u", (unsigned)reason, (unsigned)place);
    printf("\n");
    return number == OILTHICKET_ACCEPTED;
}

/* Sends one UART byte. */
static int say(uint8_t byte)
{
    uint8_t number = oilthicket_take_byte(session, sizeof session, byte, flash, sizeof flash, sram, sizeof sram,
                                          usd, sizeof usd, buffer, sizeof buffer, &length, &reason, &place);
    return answered(&byte, 1, number);
}

/* Sends UART bytes at once; there is room for all their replies. */
static int say_all(const uint8_t *bytes, size_t bytes_length)
{
    size_t taken;
    uint8_t number = oilthicket_take_bytes(session, sizeof session, bytes, bytes_length, flash, sizeof flash,
                                           sram, sizeof sram, usd, sizeof usd, buffer, sizeof buffer,
                                           &taken, &length, &reason, &place);
    return answered(bytes, taken, number) && taken == bytes_length;
}

/* Sends one CAN frame. */
static int send(const uint8_t frame[OILTHICKET_FRAME_BYTES])
{
    uint8_t number = oilthicket_take_frame(session, sizeof session, frame, OILTHICKET_FRAME_BYTES,
                                           flash, sizeof flash, sram, sizeof sram,
                                           usd, sizeof usd, buffer, sizeof buffer, &length, &reason, &place);
    return answered(frame, OILTHICKET_FRAME_BYTES, number);
}

/* Powers the board on. */
static int power_on(void)
{
    return oilthicket_power_on(session, sizeof session) == OILTHICKET_ACCEPTED;
}

int main(void)
{
    static const uint8_t connect[OILTHICKET_FRAME_BYTES] = {0x00, 0x79};
    static const uint8_t talk[] = {0x7F, 0x01, 0xFE, 0x05, 0xFA};

    /* The fresh board: flash and user system data erased, protection off. */
    memset(flash, 0xFF, sizeof flash);
    memset(usd, 0xFF, sizeof usd);
    usd[0] = 0xA5;

    if (power_on() && say(0x7F) && say(0x01) && say(0xFE) && say(0x05) && say(0xFA) && power_on() && send(connect)
        && power_on() && say_all(talk, sizeof talk))
        return 0;
    return 1;
}
