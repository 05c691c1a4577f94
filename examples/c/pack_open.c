/* Packs a cube of one sample, opens it again and compares.
 *
 *   cc -Iinclude examples/c/pack_open.c target/native/libcube_c.a -o pack_open && ./pack_open
 *
 * The settings are those of the file below; for an image of your own call remulingka_usual.
 */
#include <inttypes.h>
#include <stdio.h>

#include "remulingka.h"

/* The file that this image must give, byte by byte. */
static const uint8_t expected[] = {0x00, 0x00, 0x01, 0x00, 0x01, 0x00, 0x01, 0x11, 0x00, 0x00,
                                   0x08, 0x00, 0x02, 0xA0, 0x00, 0x59, 0x00, 0x40, 0x20, 0x04};

/* Says what was refused; the status of the program. */
static int refused(const char *call, uint64_t answer) {
    int number = remulingka_number_of(answer);
    fprintf(stderr, "%s: refusal %d: %s (%" PRIu64 ")\n", call, number, remulingka_words(number),
            remulingka_value_of(answer));
    return 1;
}

int main(void) {
    const int32_t settings[REMULINGKA_SETTING_SLOTS] = {
        [REMULINGKA_NX] = 1,          [REMULINGKA_NY] = 1,      [REMULINGKA_NZ] = 1,
        [REMULINGKA_D] = 8,           [REMULINGKA_B] = 1,       [REMULINGKA_BAND_SEQUENTIAL] = 1,
        [REMULINGKA_REDUCED] = 1,     [REMULINGKA_COLUMN] = 1,  [REMULINGKA_R] = 32,
        [REMULINGKA_OMEGA] = 4,       [REMULINGKA_TINC] = 16,   [REMULINGKA_VMIN] = -1,
        [REMULINGKA_VMAX] = 3,        [REMULINGKA_UMAX] = 8,    [REMULINGKA_GAMMA_STAR] = 4,
        [REMULINGKA_GAMMA_0] = 1,
    };
    const int32_t samples[1] = {130};
    int32_t tables[REMULINGKA_TABLE_SLOTS] = {0};
    int32_t scratch[REMULINGKA_SCRATCH_SLOTS];
    uint8_t file[REMULINGKA_LONGEST(1, 1, 1)];

    uint64_t answer = remulingka_pack(settings, REMULINGKA_SETTING_SLOTS, tables,
                                      REMULINGKA_TABLE_SLOTS, samples, 1, scratch,
                                      REMULINGKA_SCRATCH_SLOTS, file, sizeof file);
    if (remulingka_number_of(answer) != REMULINGKA_OK) return refused("pack", answer);
    size_t length = (size_t)remulingka_value_of(answer);
    printf("packed: %zu bytes:", length);
    for (size_t i = 0; i < length; i++) printf(" %02X", file[i]);
    printf("\n");
    if (length != sizeof expected) return 1;
    for (size_t i = 0; i < length; i++)
        if (file[i] != expected[i]) return 1;

    int32_t image[1], opened[REMULINGKA_SETTING_SLOTS];
    answer = remulingka_open(file, length, scratch, REMULINGKA_SCRATCH_SLOTS, tables,
                             REMULINGKA_TABLE_SLOTS, image, 1, opened, REMULINGKA_SETTING_SLOTS);
    if (remulingka_number_of(answer) != REMULINGKA_OK) return refused("open", answer);
    printf("opened: %" PRIu64 " sample, %" PRId32 "\n", remulingka_value_of(answer), image[0]);
    for (int slot = 0; slot < REMULINGKA_SETTING_SLOTS; slot++)
        if (opened[slot] != settings[slot]) return 1;
    return image[0] == samples[0] ? 0 : 1;
}
