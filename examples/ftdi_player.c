/* Plays samples from standard input on the eight pins of an FTDI chip in bit-bang mode (docs/HARDWARE.md).
 *     cc -o ftdi_player ftdi_player.c $(pkg-config --cflags --libs libftdi1)
 *     ftdi_player BYTES_A_SECOND <samples
 * Two transfers are under way at a time, so that the chip's buffer is filled without a gap. */
#include <ftdi.h>
#include <stdio.h>
#include <stdlib.h>
#include <unistd.h>

int main(int count, char **words) {
    unsigned char piece[2][512];
    struct ftdi_transfer_control *sent[2] = {NULL, NULL};
    struct ftdi_context *chip = ftdi_new();
    int next = 0, size;

    if (count != 2 || chip == NULL || ftdi_usb_open(chip, 0x0403, 0x6001) < 0 || ftdi_set_bitmode(chip, 0xff, BITMODE_BITBANG) < 0 ||
        ftdi_set_baudrate(chip, atoi(words[1]) / 16) < 0) {
        fprintf(stderr, "ftdi_player: %s\n", count != 2 ? "usage: ftdi_player BYTES_A_SECOND" : ftdi_get_error_string(chip));
        return 1;
    }
    while ((size = read(0, piece[next], sizeof piece[next])) > 0) {
        sent[next] = ftdi_write_data_submit(chip, piece[next], size);
        next = 1 - next;
        if (sent[next] != NULL && ftdi_transfer_data_done(sent[next]) < 0) {
            fprintf(stderr, "ftdi_player: %s\n", ftdi_get_error_string(chip));
            return 1;
        }
        sent[next] = NULL;
    }
    return sent[1 - next] != NULL && ftdi_transfer_data_done(sent[1 - next]) < 0;
}
