#include "page_code.h"

#include <string.h>

/* ---- The field of 256 elements, by x^8 + x^4 + x^3 + x^2 + 1: the powers of 2, which are all elements but 0, and of which
 * power an element is.
 */

static const uint8_t power[255] = {
    1,   2,   4,   8,   16,  32,  64,  128, 29,  58,  116, 232, 205, 135, 19,  38,  76,  152, 45,  90,  180, 117, 234, 201,
    143, 3,   6,   12,  24,  48,  96,  192, 157, 39,  78,  156, 37,  74,  148, 53,  106, 212, 181, 119, 238, 193, 159, 35,
    70,  140, 5,   10,  20,  40,  80,  160, 93,  186, 105, 210, 185, 111, 222, 161, 95,  190, 97,  194, 153, 47,  94,  188,
    101, 202, 137, 15,  30,  60,  120, 240, 253, 231, 211, 187, 107, 214, 177, 127, 254, 225, 223, 163, 91,  182, 113, 226,
    217, 175, 67,  134, 17,  34,  68,  136, 13,  26,  52,  104, 208, 189, 103, 206, 129, 31,  62,  124, 248, 237, 199, 147,
    59,  118, 236, 197, 151, 51,  102, 204, 133, 23,  46,  92,  184, 109, 218, 169, 79,  158, 33,  66,  132, 21,  42,  84,
    168, 77,  154, 41,  82,  164, 85,  170, 73,  146, 57,  114, 228, 213, 183, 115, 230, 209, 191, 99,  198, 145, 63,  126,
    252, 229, 215, 179, 123, 246, 241, 255, 227, 219, 171, 75,  150, 49,  98,  196, 149, 55,  110, 220, 165, 87,  174, 65,
    130, 25,  50,  100, 200, 141, 7,   14,  28,  56,  112, 224, 221, 167, 83,  166, 81,  162, 89,  178, 121, 242, 249, 239,
    195, 155, 43,  86,  172, 69,  138, 9,   18,  36,  72,  144, 61,  122, 244, 245, 247, 243, 251, 235, 203, 139, 11,  22,
    44,  88,  176, 125, 250, 233, 207, 131, 27,  54,  108, 216, 173, 71,  142};

static const uint8_t power_of[256] = {
    0,   0,   1,   25,  2,   50,  26,  198, 3,   223, 51,  238, 27,  104, 199, 75,  4,   100, 224, 14,  52,  141, 239, 129,
    28,  193, 105, 248, 200, 8,   76,  113, 5,   138, 101, 47,  225, 36,  15,  33,  53,  147, 142, 218, 240, 18,  130, 69,
    29,  181, 194, 125, 106, 39,  249, 185, 201, 154, 9,   120, 77,  228, 114, 166, 6,   191, 139, 98,  102, 221, 48,  253,
    226, 152, 37,  179, 16,  145, 34,  136, 54,  208, 148, 206, 143, 150, 219, 189, 241, 210, 19,  92,  131, 56,  70,  64,
    30,  66,  182, 163, 195, 72,  126, 110, 107, 58,  40,  84,  250, 133, 186, 61,  202, 94,  155, 159, 10,  21,  121, 43,
    78,  212, 229, 172, 115, 243, 167, 87,  7,   112, 192, 247, 140, 128, 99,  13,  103, 74,  222, 237, 49,  197, 254, 24,
    227, 165, 153, 119, 38,  184, 180, 124, 17,  68,  146, 217, 35,  32,  137, 46,  55,  63,  209, 91,  149, 188, 207, 205,
    144, 135, 151, 178, 220, 252, 190, 97,  242, 86,  211, 171, 20,  42,  93,  158, 132, 60,  57,  83,  71,  109, 65,  162,
    31,  45,  67,  216, 183, 123, 164, 118, 196, 23,  73,  236, 127, 12,  111, 246, 108, 161, 59,  82,  41,  157, 85,  170,
    251, 96,  134, 177, 187, 204, 62,  90,  203, 89,  95,  176, 156, 169, 160, 81,  11,  245, 22,  235, 122, 117, 44,  215,
    79,  174, 213, 233, 230, 231, 173, 232, 116, 214, 244, 234, 168, 80,  88,  175};

/* An element times 2^exponent, which is at most 254. */
static uint8_t times_power(uint8_t a, uint32_t exponent)
{
    uint32_t sum = power_of[a] + exponent;
    return a == 0 ? 0 : power[sum < 255 ? sum : sum - 255];
}

static uint8_t times(uint8_t a, uint8_t b)
{
    return b == 0 ? 0 : times_power(a, power_of[b]);
}

static uint8_t inverse(uint8_t a)
{
    return power[(255 - power_of[a]) % 255];
}

/* ---- The Reed-Solomon code. A word is a polynomial, its first byte the highest coefficient, that is 0 at 2^1, 2^2, .. for
 * each check byte.
 */

static uint32_t message_bytes(const struct page_code *code)
{
    return code->tag_bytes + PAGE_CODE_CRC_BYTES;
}

uint32_t page_code_bytes(const struct page_code *code)
{
    return message_bytes(code) + code->check_bytes;
}

/* The product of all x + 2^i, its highest coefficient first, but for that, which is 1. */
static void make_generator(struct page_code *code)
{
    memset(code->generator, 0, sizeof code->generator);
    for (uint32_t i = 0; i < code->check_bytes; i++)
        for (uint32_t j = i + 1; j-- > 0;)
            code->generator[j] ^= times(j == 0 ? 1 : code->generator[j - 1], power[i + 1]);
}

/* What follows a message in a word: the rest of its division by the generator. */
static void make_checks(const struct page_code *code, const uint8_t *message, uint8_t *checks)
{
    uint32_t last = code->check_bytes - 1;
    memset(checks, 0, code->check_bytes);
    for (uint32_t i = 0; i < message_bytes(code); i++) {
        uint8_t head = message[i] ^ checks[0];
        for (uint32_t j = 0; j < last; j++)
            checks[j] = checks[j + 1] ^ times(head, code->generator[j]);
        checks[last] = times(head, code->generator[last]);
    }
}

/* The value at an element of a polynomial whose lowest coefficient is the first. */
static uint8_t value_at(const uint8_t *polynomial, uint32_t count, uint8_t element)
{
    uint8_t value = 0;
    while (count-- > 0)
        value = times(value, element) ^ polynomial[count];
    return value;
}

/* The syndromes: the word's values at the roots. Whether each is 0. */
static bool find_sums(const struct page_code *code, const uint8_t *word, uint8_t *sums)
{
    uint32_t bytes = page_code_bytes(code);
    bool clean = true;
    for (uint32_t i = 0; i < code->check_bytes; i++) {
        sums[i] = 0;
        for (uint32_t at = 0; at < bytes; at++)
            sums[i] = times_power(sums[i], i + 1) ^ word[at];
        clean = clean && sums[i] == 0;
    }
    return clean;
}

/* Berlekamp and Massey: the shortest polynomial, its lowest coefficient first, that the syndromes follow. Returns its degree:
 * so many bytes are wrong, if that is half of the check bytes or fewer.
 */
static uint32_t find_locator(const struct page_code *code, const uint8_t *sums, uint8_t *locator)
{
    uint8_t before[PAGE_CODE_MOST_CHECKS + 1] = {1}, previous[PAGE_CODE_MOST_CHECKS + 1], scale = 1;
    uint32_t degree = 0, shift = 1;
    memset(locator, 0, PAGE_CODE_MOST_CHECKS + 1);
    locator[0] = 1;
    for (uint32_t i = 0; i < code->check_bytes; i++, shift++) {
        uint8_t off = 0;
        for (uint32_t j = 0; j <= degree; j++)
            off ^= times(locator[j], sums[i - j]);
        if (off == 0)
            continue;
        memcpy(previous, locator, sizeof previous);
        for (uint32_t j = shift; j <= code->check_bytes; j++)
            locator[j] ^= times(times(off, inverse(scale)), before[j - shift]);
        if (2 * degree <= i) {
            degree = i + 1 - degree;
            memcpy(before, previous, sizeof before);
            scale = off;
            shift = 0;
        }
    }
    return degree;
}

/* Chien and Forney: each place whose element the locator names is corrected. Returns how many there were. */
static uint32_t correct_places(const struct page_code *code, const uint8_t *sums, const uint8_t *locator, uint32_t degree,
                               uint8_t *word)
{
    uint8_t values[PAGE_CODE_MOST_CHECKS] = {0}, slopes[PAGE_CODE_MOST_CHECKS] = {0};
    uint32_t found = 0, bytes = page_code_bytes(code);
    for (uint32_t i = 0; i < degree; i++)
        for (uint32_t j = 0; j <= i; j++)
            values[i] ^= times(locator[j], sums[i - j]);
    for (uint32_t j = 1; j <= degree; j += 2) /* the derivative */
        slopes[j - 1] = locator[j];
    for (uint32_t at = 0; at < bytes; at++) {
        uint8_t back = power[(255 - (bytes - 1 - at)) % 255], slope = value_at(slopes, degree, back);
        if (value_at(locator, degree + 1, back) != 0 || slope == 0)
            continue;
        word[at] ^= times(value_at(values, degree, back), inverse(slope));
        found++;
    }
    return found;
}

/* Corrects a word; false where more bytes are wrong than it can correct, as far as that is seen. */
static bool correct(const struct page_code *code, uint8_t *word)
{
    uint8_t sums[PAGE_CODE_MOST_CHECKS], locator[PAGE_CODE_MOST_CHECKS + 1];
    if (find_sums(code, word, sums))
        return true;
    uint32_t degree = find_locator(code, sums, locator);
    if (degree > code->check_bytes / 2 || correct_places(code, sums, locator, degree, word) != degree)
        return false;
    return find_sums(code, word, sums);
}

/* ---- The checksum, with a table for each half of a byte. */

uint32_t page_code_crc(uint32_t before, const uint8_t *bytes, size_t size)
{
    static const uint32_t low[16] = {0x00000000, 0x77073096, 0xee0e612c, 0x990951ba, 0x076dc419, 0x706af48f,
                                     0xe963a535, 0x9e6495a3, 0x0edb8832, 0x79dcb8a4, 0xe0d5e91e, 0x97d2d988,
                                     0x09b64c2b, 0x7eb17cbd, 0xe7b82d07, 0x90bf1d91};
    static const uint32_t high[16] = {0x00000000, 0x1db71064, 0x3b6e20c8, 0x26d930ac, 0x76dc4190, 0x6b6b51f4,
                                      0x4db26158, 0x5005713c, 0xedb88320, 0xf00f9344, 0xd6d6a3e8, 0xcb61b38c,
                                      0x9b64c2b0, 0x86d3d2d4, 0xa00ae278, 0xbdbdf21c};
    uint32_t crc = ~before;
    for (size_t i = 0; i < size; i++) {
        crc ^= bytes[i];
        crc = crc >> 8 ^ low[crc & 15] ^ high[crc >> 4 & 15];
    }
    return ~crc;
}

static uint32_t crc_of(const struct page_code *code, const uint8_t *data, const uint8_t *tag)
{
    return page_code_crc(page_code_crc(0, data, code->page_bytes), tag, code->tag_bytes);
}

static uint32_t number_at(const uint8_t *bytes)
{
    return (uint32_t)bytes[0] | (uint32_t)bytes[1] << 8 | (uint32_t)bytes[2] << 16 | (uint32_t)bytes[3] << 24;
}

/* ---- The envelope. */

static bool share_a_byte(const struct page_run *one, const struct page_run *other)
{
    return one->offset < other->offset + other->bytes && other->offset < one->offset + one->bytes;
}

bool page_code_make(struct page_code *code, uint32_t page_bytes, uint32_t tag_bytes, const struct page_run *runs,
                    uint32_t run_count, uint32_t spare_bytes)
{
    uint32_t room = 0, least = tag_bytes + PAGE_CODE_CRC_BYTES + PAGE_CODE_LEAST_CHECKS;
    for (uint32_t i = 0; i < run_count; i++) {
        if (runs[i].offset > spare_bytes || runs[i].bytes > spare_bytes - runs[i].offset)
            return false;
        for (uint32_t j = 0; j < i; j++)
            if (share_a_byte(&runs[i], &runs[j]))
                return false;
        room += runs[i].bytes;
    }
    if ((tag_bytes != FLASH_TAG_BYTES && tag_bytes != FLASH_TAG_BYTES / 2) || room < least)
        return false;
    uint32_t checks = room - least + PAGE_CODE_LEAST_CHECKS;
    checks = checks < PAGE_CODE_MOST_CHECKS ? checks : PAGE_CODE_MOST_CHECKS;
    *code = (struct page_code){page_bytes, tag_bytes, checks, checks / 2, runs, run_count, {0}};
    make_generator(code);
    return true;
}

void page_code_write(const struct page_code *code, const uint8_t *data, const uint8_t *tag, uint8_t *spare)
{
    uint8_t word[PAGE_CODE_MOST_BYTES];
    uint32_t at = 0, bytes = page_code_bytes(code);
    memcpy(word, tag, code->tag_bytes);
    uint32_t crc = crc_of(code, data, tag);
    for (uint32_t i = 0; i < PAGE_CODE_CRC_BYTES; i++)
        word[code->tag_bytes + i] = (uint8_t)(crc >> (8 * i));
    make_checks(code, word, word + message_bytes(code));
    for (const struct page_run *run = code->runs; at < bytes; run++) {
        uint32_t piece = run->bytes < bytes - at ? run->bytes : bytes - at;
        memcpy(spare + run->offset, word + at, piece);
        at += piece;
    }
}

static void gather(const struct page_code *code, const uint8_t *spare, uint8_t *word)
{
    uint32_t at = 0, bytes = page_code_bytes(code);
    for (const struct page_run *run = code->runs; at < bytes; run++) {
        uint32_t piece = run->bytes < bytes - at ? run->bytes : bytes - at;
        memcpy(word + at, spare + run->offset, piece);
        at += piece;
    }
}

static uint32_t zeros_of(uint64_t bits)
{
    uint32_t count = 0;
    for (bits = ~bits; bits != 0; bits &= bits - 1)
        count++;
    return count;
}

/* Adds the bits that are 0 to a count, until it is above the most. */
static uint32_t count_zeros(uint32_t count, uint32_t most, const uint8_t *bytes, size_t size)
{
    for (size_t i = 0; i < size && count <= most; i += sizeof(uint64_t)) {
        uint64_t word = UINT64_MAX;
        memcpy(&word, bytes + i, size - i < sizeof word ? size - i : sizeof word);
        count += zeros_of(word);
    }
    return count;
}

static uint32_t count_changes(const uint8_t *one, const uint8_t *other, size_t size)
{
    uint32_t count = 0;
    for (size_t i = 0; i < size; i++)
        count += zeros_of(~(uint64_t)(one[i] ^ other[i]));
    return count;
}

int page_code_read(const struct page_code *code, const uint8_t *data, const uint8_t *spare, uint8_t *tag, uint32_t *corrected)
{
    uint8_t there[PAGE_CODE_MOST_BYTES], word[PAGE_CODE_MOST_BYTES];
    uint32_t bytes = page_code_bytes(code), changes = 0;
    int kind = FLASH_UNCORRECTABLE;
    gather(code, spare, there);
    memcpy(word, there, bytes);
    uint32_t zeros = count_zeros(0, code->erased_bits, there, bytes);
    zeros = count_zeros(zeros, code->erased_bits, data, code->page_bytes);
    /* 0xff bytes alone are no word of the code. */
    if (zeros > 0 && correct(code, word) && number_at(word + code->tag_bytes) == crc_of(code, data, word)) {
        kind = FLASH_WRITTEN;
        memcpy(tag, word, code->tag_bytes);
        changes = count_changes(there, word, bytes);
    } else if (zeros <= code->erased_bits) {
        kind = FLASH_ERASED;
        changes = zeros;
    }
    if (corrected != NULL)
        *corrected = changes;
    return kind;
}
