/* remulingka.h: packs and opens cube files (CCSDS 123.0-B-1, sample-adaptive coder).
 *
 * Link libcube_c.a (libremulingka where it was installed). The four calls at the end keep no
 * state, allocate nothing, start no thread and never fail but by the answers below. What each
 * of them answers, and what every lent area holds afterwards, is proved for all inputs; the one
 * exception is what scratch holds. The static functions of this header are ordinary C, tested
 * and not proved.
 *
 * An area is a pointer and the count of its elements. A pointer must not be null, not even with
 * a count of 0, must be aligned for its type, and good for that many elements; with a count of 0
 * it is not followed. An area that is written (one that is not const) must not overlap any other.
 * Mind the order of areas: pack reads settings, tables and samples, and writes scratch and out;
 * open reads file, and writes scratch, tables, image and settings. Four of them are int32_t, and
 * no compiler sees that two were exchanged.
 *
 * SAMPLES are int32_t, band by band and row by row: sample (z, y, x) lies at
 * z*Ny*Nx + y*Nx + x. An image has at most REMULINGKA_MOST_SAMPLES samples in at most
 * REMULINGKA_MOST_BANDS bands.
 *
 * SCRATCH is working memory of REMULINGKA_SCRATCH_SLOTS*Nz slots. What it held before changes
 * nothing.
 *
 * TABLES are REMULINGKA_TABLE_SLOTS slots a band: all but the last for weight components, from
 * the first, and then k'. They are settings too: the writer ignores those that its settings do
 * not use; the reader sets the first REMULINGKA_TABLE_SLOTS*Nz, the unused ones to zero.
 *
 * SETTINGS are REMULINGKA_SETTING_SLOTS slots, in the order of enum remulingka_slot. Flags are 0
 * or 1. Further slots are ignored by the writer and left as they are by the reader. A slot that
 * is no setting (M when band-sequential, Q with default weights, K beside a table of k') is
 * ignored by the writer, whatever it holds, and set to 0 by the reader. remulingka_usual fills
 * them for an image.
 *
 * THE ANSWER is number * 2^56 + value. Number 0 is success; any other is a refusal, and
 * remulingka_words says what it means.
 */
#ifndef REMULINGKA_H
#define REMULINGKA_H

#include <stddef.h>
#include <stdint.h>

#ifdef __cplusplus
extern "C" {
#endif

/* The version of this header, as that of the archive and of the command line. */
#define REMULINGKA_VERSION_MAJOR 0
#define REMULINGKA_VERSION_MINOR 2
#define REMULINGKA_VERSION_PATCH 0
#define REMULINGKA_VERSION "0.2.0"

/* The house limits on an image. */
#define REMULINGKA_MOST_SAMPLES 268435456
#define REMULINGKA_MOST_BANDS 4096

/* The slots of the settings, with the values that are legal. */
enum remulingka_slot {
    REMULINGKA_USER,             /* a free byte, 0 to 255 */
    REMULINGKA_NX,               /* Nx, columns, 1 to 65,536 */
    REMULINGKA_NY,               /* Ny, rows, 1 to 65,536 */
    REMULINGKA_NZ,               /* Nz, bands, 1 to REMULINGKA_MOST_BANDS */
    REMULINGKA_SIGNED,           /* flag: samples are signed */
    REMULINGKA_D,                /* D, bits of a sample, 2 to 16 */
    REMULINGKA_BAND_SEQUENTIAL,  /* flag: coding order; 0 is band-interleaved */
    REMULINGKA_M,                /* M, interleaving depth, 1 to Nz */
    REMULINGKA_B,                /* B, the file's length is a multiple of it, 1 to 8 */
    REMULINGKA_P,                /* P, bands before used to predict, 0 to 15 */
    REMULINGKA_REDUCED,          /* flag: reduced mode; must be 1 where Nx is 1 */
    REMULINGKA_COLUMN,           /* flag: column sums; must be 1 where Nx is 1 */
    REMULINGKA_R,                /* R, register size, max(32, D + Omega + 2) to 64 */
    REMULINGKA_OMEGA,            /* Omega, weight resolution, 4 to 19 */
    REMULINGKA_TINC,             /* tinc, a power of 2, 16 to 2,048 */
    REMULINGKA_VMIN,             /* vmin, -6 to vmax */
    REMULINGKA_VMAX,             /* vmax, vmin to 9 */
    REMULINGKA_CUSTOM_WEIGHTS,   /* flag: weights from the tables */
    REMULINGKA_Q,                /* Q, bits of a table's weight, 3 to Omega + 3 */
    REMULINGKA_UMAX,             /* Umax, unary limit, 8 to 32 */
    REMULINGKA_GAMMA_STAR,       /* gamma*, rescaling counter size, max(4, gamma0 + 1) to 9 */
    REMULINGKA_GAMMA_0,          /* gamma0, initial count exponent, 1 to 8 */
    REMULINGKA_K_TABLE,          /* flag: k' from the tables */
    REMULINGKA_K,                /* K, one k' for all bands, 0 to D - 2 */
    REMULINGKA_SETTING_SLOTS     /* how many there are */
};

/* Slots a band of the table area and of scratch. */
#define REMULINGKA_TABLE_SLOTS 19
#define REMULINGKA_SCRATCH_SLOTS 32

/* No file of an image of these sizes is longer, in bytes: 19 bytes of header fields, 50 bytes of
 * tables a band, at most Umax + D = 48 bits a sample, and fill. An output so long is never
 * refused 6: proved for all legal settings (file-at-most in crates/cube/specs/SizeLaws.antt). */
#define REMULINGKA_LONGEST(nx, ny, nz) \
    ((size_t)32 + (size_t)50 * (size_t)(nz) + (size_t)6 * (size_t)(nx) * (size_t)(ny) * (size_t)(nz))

/* The refusals, with the value beside the number and what becomes of the output of
 * remulingka_pack, or of the image and table areas of remulingka_open. The settings area of
 * the reading calls is untouched by every refusal. */
enum remulingka_number {
    REMULINGKA_OK = 0,
    REMULINGKA_ILLEGAL_SETTING = 1,    /* writer: a setting or used table value; 0; untouched */
    REMULINGKA_SAMPLE_OUT_OF_RANGE = 2, /* writer: a sample; index of the first; untouched */
    REMULINGKA_WRONG_COUNT = 3,        /* writer: samples are not Nx*Ny*Nz; reader: image area
                                          smaller; too few slots of settings; 0; untouched */
    REMULINGKA_HOUSE_LIMIT = 4,        /* over a house limit; 0; untouched */
    REMULINGKA_SHORT_AREA = 5,         /* scratch or tables too short; 0; untouched */
    REMULINGKA_NO_ROOM = 6,            /* writer: file longer than out; its length; all zero */
    REMULINGKA_ENDS_IN_HEADER = 7,     /* reader: file ends in its header; 0; untouched */
    REMULINGKA_ILLEGAL_FIELD = 8,      /* reader: header field, zero bit or fill; 0; untouched */
    REMULINGKA_BODY_ENDS = 9,          /* reader: body ends too soon; rank of the value; all zero */
    REMULINGKA_BAD_CODEWORD = 10,      /* reader: codeword no writer chooses; rank; all zero */
    REMULINGKA_AFTER_END = 11,         /* reader: bytes behind the end, or fill set; Nx*Ny*Nz;
                                          all zero */
    REMULINGKA_BLOCK_CODER = 12,       /* reader: block-adaptive coder; 0; untouched */
    /* 13 to 18 are of calls that are still to come. */
    REMULINGKA_UNFIT_FILE = 13,        /* a file of no bytes, or of too many blocks; 0 */
    REMULINGKA_ROW_OUT_OF_TURN = 14,   /* a row after the last, or an end before it or twice; 0 */
    REMULINGKA_SECOND_NOT_RISING = 15, /* the second does not rise; 0 */
    REMULINGKA_NO_TABLES_LENT = 16,    /* an omitted table, and none lent; 0 */
    REMULINGKA_BAD_CALIBRATION = 17,   /* a band's calibration is bad; the first such band */
    REMULINGKA_NO_SERIAL_LEFT = 18     /* no serial is left on the card; 0 */
};

/* The two parts of an answer. */
static inline int remulingka_number_of(uint64_t answer) { return (int)(answer >> 56); }
static inline uint64_t remulingka_value_of(uint64_t answer) {
    return answer & ((UINT64_C(1) << 56) - 1);
}

/* What a number means, in words; never null. */
static inline const char *remulingka_words(int number) {
    switch (number) {
    case REMULINGKA_OK: return "success";
    case REMULINGKA_ILLEGAL_SETTING: return "a setting is illegal";
    case REMULINGKA_SAMPLE_OUT_OF_RANGE: return "a sample is out of range";
    case REMULINGKA_WRONG_COUNT: return "the count of samples or slots is wrong";
    case REMULINGKA_HOUSE_LIMIT: return "the image is over the house limits";
    case REMULINGKA_SHORT_AREA: return "scratch or the table area is too short";
    case REMULINGKA_NO_ROOM: return "the file is longer than the output";
    case REMULINGKA_ENDS_IN_HEADER: return "the file ends inside its header";
    case REMULINGKA_ILLEGAL_FIELD:
        return "a header field is illegal, or a bit that must be 0 is set";
    case REMULINGKA_BODY_ENDS: return "the file ends too soon";
    case REMULINGKA_BAD_CODEWORD: return "a codeword that no packer chooses";
    case REMULINGKA_AFTER_END: return "there are bytes or set bits behind the last value";
    case REMULINGKA_BLOCK_CODER: return "the file has the block-adaptive coder";
    case REMULINGKA_UNFIT_FILE: return "the file has no bytes, or more blocks than a strip";
    case REMULINGKA_ROW_OUT_OF_TURN: return "a row after the last, or an end before it or twice";
    case REMULINGKA_SECOND_NOT_RISING: return "the second is not above the card's last";
    case REMULINGKA_NO_TABLES_LENT: return "the file omits a table and none was lent";
    case REMULINGKA_BAD_CALIBRATION: return "the calibration of a band is bad";
    case REMULINGKA_NO_SERIAL_LEFT: return "no serial is left on the card";
    default: return "unknown";
    }
}

/* Fills the settings that suit most images of nx columns, ny rows and nz bands, with samples of
 * depth bits, signed or not; slots may be changed afterwards. They are those of the library for
 * Rust and of the command line. */
static inline void remulingka_usual(int32_t settings[REMULINGKA_SETTING_SLOTS], int32_t nx,
                                    int32_t ny, int32_t nz, int is_signed, int32_t depth) {
    int32_t thin = nx == 1;
    for (int slot = 0; slot < REMULINGKA_SETTING_SLOTS; slot++) settings[slot] = 0;
    settings[REMULINGKA_NX] = nx;
    settings[REMULINGKA_NY] = ny;
    settings[REMULINGKA_NZ] = nz;
    settings[REMULINGKA_SIGNED] = is_signed ? 1 : 0;
    settings[REMULINGKA_D] = depth;
    settings[REMULINGKA_BAND_SEQUENTIAL] = 1;
    settings[REMULINGKA_B] = 1;
    settings[REMULINGKA_P] = 3;
    settings[REMULINGKA_REDUCED] = thin;
    settings[REMULINGKA_COLUMN] = thin;
    settings[REMULINGKA_R] = 64;
    settings[REMULINGKA_OMEGA] = depth < 0 ? 4 : depth > 15 ? 19 : depth + 4;
    settings[REMULINGKA_TINC] = 64;
    settings[REMULINGKA_VMIN] = -1;
    settings[REMULINGKA_VMAX] = 3;
    settings[REMULINGKA_UMAX] = 18;
    settings[REMULINGKA_GAMMA_STAR] = 6;
    settings[REMULINGKA_GAMMA_0] = 1;
    settings[REMULINGKA_K] = depth < 2 ? 0 : depth > 6 ? 4 : depth - 2;
}

/* Packs an image. Success: the file's length; the file is at the start of out, and nothing
 * behind it changes. Refuses 3 (settings), 1, 4, 3, 5, 1 (tables), 2, 6, in this order. */
uint64_t remulingka_pack(const int32_t *settings, size_t settings_length,
                         const int32_t *tables, size_t tables_length,
                         const int32_t *samples, size_t samples_length,
                         int32_t *scratch, size_t scratch_length,
                         uint8_t *out, size_t out_length);

/* Counts the length of the file that remulingka_pack would write. Success: that length.
 * Refuses as remulingka_pack does, but for 6. */
uint64_t remulingka_length(const int32_t *settings, size_t settings_length,
                           const int32_t *tables, size_t tables_length,
                           const int32_t *samples, size_t samples_length,
                           int32_t *scratch, size_t scratch_length);

/* Opens a file. Success: Nx*Ny*Nz; that many samples at the start of image, the table values
 * and the settings at the start of theirs; nothing behind them changes. It opens exactly the
 * files that remulingka_pack writes for some image; the format has no check, so that a changed
 * file can be another image's. Refuses 3 (settings), then in the header 7, 8, 12, 4, then 3
 * (image), 5, then in the body 9, 10, 11. Ranks count from 0 in coding order. */
uint64_t remulingka_open(const uint8_t *file, size_t file_length,
                         int32_t *scratch, size_t scratch_length,
                         int32_t *tables, size_t tables_length,
                         int32_t *image, size_t image_length,
                         int32_t *settings, size_t settings_length);

/* Reads a file's header alone, so that areas of the right sizes can be lent. Success: 0, and
 * the settings. Refuses 3 (settings), 7, 8, 12, 4. */
uint64_t remulingka_look(const uint8_t *file, size_t file_length,
                         int32_t *settings, size_t settings_length);

#ifdef __cplusplus
}
#endif

#endif
