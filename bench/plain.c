#include "plain.h"

#include <string.h>

#include "tainhosa.h"

/* ---- SHA-256 */

static const uint32_t K[64] = {
    0x428a2f98, 0x71374491, 0xb5c0fbcf, 0xe9b5dba5, 0x3956c25b, 0x59f111f1, 0x923f82a4, 0xab1c5ed5,
    0xd807aa98, 0x12835b01, 0x243185be, 0x550c7dc3, 0x72be5d74, 0x80deb1fe, 0x9bdc06a7, 0xc19bf174,
    0xe49b69c1, 0xefbe4786, 0x0fc19dc6, 0x240ca1cc, 0x2de92c6f, 0x4a7484aa, 0x5cb0a9dc, 0x76f988da,
    0x983e5152, 0xa831c66d, 0xb00327c8, 0xbf597fc7, 0xc6e00bf3, 0xd5a79147, 0x06ca6351, 0x14292967,
    0x27b70a85, 0x2e1b2138, 0x4d2c6dfc, 0x53380d13, 0x650a7354, 0x766a0abb, 0x81c2c92e, 0x92722c85,
    0xa2bfe8a1, 0xa81a664b, 0xc24b8b70, 0xc76c51a3, 0xd192e819, 0xd6990624, 0xf40e3585, 0x106aa070,
    0x19a4c116, 0x1e376c08, 0x2748774c, 0x34b0bcb5, 0x391c0cb3, 0x4ed8aa4a, 0x5b9cca4f, 0x682e6ff3,
    0x748f82ee, 0x78a5636f, 0x84c87814, 0x8cc70208, 0x90befffa, 0xa4506ceb, 0xbef9a3f7, 0xc67178f2,
};

static const uint32_t H0[8] = {
    0x6a09e667, 0xbb67ae85, 0x3c6ef372, 0xa54ff53a, 0x510e527f, 0x9b05688c, 0x1f83d9ab, 0x5be0cd19,
};

static uint32_t rotr(uint32_t x, int n)
{
    return (x >> n) | (x << (32 - n));
}

static void compress(uint32_t hash[8], const uint8_t *block)
{
    uint32_t w[64];
    for (int t = 0; t < 16; t++) {
        const uint8_t *p = block + 4 * t;
        w[t] = (uint32_t)p[0] << 24 | (uint32_t)p[1] << 16 | (uint32_t)p[2] << 8 | p[3];
    }
    for (int t = 16; t < 64; t++) {
        uint32_t x = w[t - 2];
        uint32_t y = w[t - 15];
        uint32_t s1 = rotr(x, 17) ^ rotr(x, 19) ^ (x >> 10);
        uint32_t s0 = rotr(y, 7) ^ rotr(y, 18) ^ (y >> 3);
        w[t] = s1 + w[t - 7] + s0 + w[t - 16];
    }
    uint32_t a = hash[0];
    uint32_t b = hash[1];
    uint32_t c = hash[2];
    uint32_t d = hash[3];
    uint32_t e = hash[4];
    uint32_t f = hash[5];
    uint32_t g = hash[6];
    uint32_t h = hash[7];
    for (int t = 0; t < 64; t++) {
        uint32_t big1 = rotr(e, 6) ^ rotr(e, 11) ^ rotr(e, 25);
        uint32_t ch = (e & f) ^ (~e & g);
        uint32_t t1 = h + big1 + ch + K[t] + w[t];
        uint32_t big0 = rotr(a, 2) ^ rotr(a, 13) ^ rotr(a, 22);
        uint32_t maj = (a & b) ^ (a & c) ^ (b & c);
        uint32_t t2 = big0 + maj;
        h = g;
        g = f;
        f = e;
        e = d + t1;
        d = c;
        c = b;
        b = a;
        a = t1 + t2;
    }
    hash[0] += a;
    hash[1] += b;
    hash[2] += c;
    hash[3] += d;
    hash[4] += e;
    hash[5] += f;
    hash[6] += g;
    hash[7] += h;
}

/* A digest on its way: the hash value after the whole blocks, the bytes that are left, and how many came in all. */
struct sha256 {
    uint32_t hash[8];
    uint8_t rest[64];
    size_t len;
};

static void start(struct sha256 *s)
{
    memcpy(s->hash, H0, sizeof s->hash);
    s->len = 0;
}

/* Takes in these bytes. Blocks that lie in them are compressed where they lie. */
static void take(struct sha256 *s, const uint8_t *bytes, size_t len)
{
    const size_t fill = s->len % 64;
    size_t at = 0;
    s->len += len;
    if (fill > 0) {
        at = len < 64 - fill ? len : 64 - fill;
        memcpy(s->rest + fill, bytes, at);
        if (fill + at < 64) {
            return;
        }
        compress(s->hash, s->rest);
    }
    for (; len - at >= 64; at += 64) {
        compress(s->hash, bytes + at);
    }
    memcpy(s->rest, bytes + at, len - at);
}

static void finish(struct sha256 *s, uint8_t digest[32])
{
    const uint64_t bits = (uint64_t)s->len * 8;
    size_t fill = s->len % 64;
    s->rest[fill++] = 0x80;
    if (fill > 56) {
        memset(s->rest + fill, 0, 64 - fill);
        compress(s->hash, s->rest);
        fill = 0;
    }
    memset(s->rest + fill, 0, 56 - fill);
    for (int i = 0; i < 8; i++) {
        s->rest[56 + i] = (uint8_t)(bits >> (56 - 8 * i));
    }
    compress(s->hash, s->rest);
    for (int i = 0; i < 32; i++) {
        digest[i] = (uint8_t)(s->hash[i / 4] >> (24 - 8 * (i % 4)));
    }
}

void plain_sha256(const uint8_t *message, size_t len, uint8_t digest[32])
{
    struct sha256 s;
    start(&s);
    take(&s, message, len);
    finish(&s, digest);
}

/* ---- The header */

static uint32_t le16(const uint8_t *p)
{
    return p[0] | (uint32_t)p[1] << 8;
}

static uint32_t le32(const uint8_t *p)
{
    return le16(p) | le16(p + 2) << 16;
}

static uint64_t le64(const uint8_t *p)
{
    return le32(p) | (uint64_t)le32(p + 4) << 32;
}

enum { VERSION, TIMESTAMP, DIGEST, SIGNATURE, AUTH_TYPE, HINT, ROWS = PLAIN_ROWS };

const uint16_t plain_types[ROWS] = {
    TAINHOSA_TYPE_VERSION,   TAINHOSA_TYPE_TIMESTAMP, TAINHOSA_TYPE_DIGEST,
    TAINHOSA_TYPE_SIGNATURE, TAINHOSA_TYPE_AUTH_TYPE, TAINHOSA_TYPE_HINT,
};

static const uint8_t lengths[ROWS] = {
    TAINHOSA_VERSION_BYTES,   TAINHOSA_TIMESTAMP_BYTES, TAINHOSA_DIGEST_BYTES,
    TAINHOSA_SIGNATURE_BYTES, TAINHOSA_AUTH_TYPE_BYTES, TAINHOSA_HINT_BYTES,
};

static int row_of(uint32_t type)
{
    switch (type) {
    case TAINHOSA_TYPE_VERSION: return VERSION;
    case TAINHOSA_TYPE_TIMESTAMP: return TIMESTAMP;
    case TAINHOSA_TYPE_DIGEST: return DIGEST;
    case TAINHOSA_TYPE_SIGNATURE: return SIGNATURE;
    case TAINHOSA_TYPE_AUTH_TYPE: return AUTH_TYPE;
    case TAINHOSA_TYPE_HINT: return HINT;
    default: return ROWS;
    }
}

static uint32_t refuse(uint64_t numbers[6], uint32_t answer, size_t place)
{
    numbers[TAINHOSA_HEADER_PLACE] = place;
    return answer;
}

/* Where the values of the tags stand, or a refusal. */
static inline uint32_t find_values(const uint8_t *input, size_t len, uint64_t numbers[6], const uint8_t *value[ROWS])
{
    size_t p = TAINHOSA_FIRST_TAG;
    memset(numbers, 0, 6 * sizeof numbers[0]);
    memset(value, 0, ROWS * sizeof value[0]);
    if (len < TAINHOSA_HEADER_LENGTH) {
        return TAINHOSA_SHORT_HEADER;
    }
    if (le32(input + TAINHOSA_MAGIC_AT) != TAINHOSA_MAGIC) {
        return TAINHOSA_WRONG_MAGIC;
    }
    if (le32(input + TAINHOSA_FIRMWARE_SIZE_AT) == 0) {
        return refuse(numbers, TAINHOSA_WRONG_SIZE, TAINHOSA_FIRMWARE_SIZE_AT);
    }
    for (;;) {
        if (p == TAINHOSA_HEADER_LENGTH) {
            return refuse(numbers, TAINHOSA_NO_END, p);
        }
        if (input[p] == TAINHOSA_PADDING) {
            p++;
            continue;
        }
        if (p + 2 > TAINHOSA_HEADER_LENGTH) {
            return refuse(numbers, TAINHOSA_TAG_DOES_NOT_FIT, p);
        }
        uint32_t type = le16(input + p);
        if (type == TAINHOSA_TYPE_END) {
            break;
        }
        if (p + 4 > TAINHOSA_HEADER_LENGTH) {
            return refuse(numbers, TAINHOSA_TAG_DOES_NOT_FIT, p);
        }
        uint32_t length = le16(input + p + 2);
        if (p + 4 + length > TAINHOSA_HEADER_LENGTH) {
            return refuse(numbers, TAINHOSA_TAG_DOES_NOT_FIT, p);
        }
        int row = row_of(type);
        if (row < ROWS) {
            if (length != lengths[row]) {
                return refuse(numbers, TAINHOSA_TAG_WRONG_LENGTH, p);
            }
            if (value[row] != NULL) {
                return refuse(numbers, TAINHOSA_TAG_REPEATED, p);
            }
            value[row] = input + p + 4;
        } else if (type >= TAINHOSA_FIRST_CRITICAL_TYPE) {
            return refuse(numbers, TAINHOSA_TAG_NOT_UNDERSTOOD, p);
        }
        p += 4 + length;
    }
    for (int row = 0; row < HINT; row++) {
        if (value[row] == NULL) {
            return refuse(numbers, TAINHOSA_TAG_MISSING, plain_types[row]);
        }
    }
    return TAINHOSA_OK;
}

uint32_t plain_read_header(const uint8_t *input, size_t len, uint64_t numbers[6], uint8_t bytes[128])
{
    const uint8_t *value[ROWS];
    memset(bytes, 0, 128);
    const uint32_t answer = find_values(input, len, numbers, value);
    if (answer != TAINHOSA_OK) {
        return answer;
    }
    numbers[TAINHOSA_HEADER_SIZE] = le32(input + TAINHOSA_FIRMWARE_SIZE_AT);
    numbers[TAINHOSA_HEADER_VERSION] = le32(value[VERSION]);
    numbers[TAINHOSA_HEADER_TIMESTAMP] = le64(value[TIMESTAMP]);
    numbers[TAINHOSA_HEADER_AUTH_TYPE] = le16(value[AUTH_TYPE]);
    memcpy(bytes + TAINHOSA_DIGEST_AT, value[DIGEST], TAINHOSA_DIGEST_BYTES);
    memcpy(bytes + TAINHOSA_SIGNATURE_AT, value[SIGNATURE], TAINHOSA_SIGNATURE_BYTES);
    if (value[HINT] != NULL) {
        numbers[TAINHOSA_HEADER_HAS_HINT] = 1;
        memcpy(bytes + TAINHOSA_HINT_AT, value[HINT], TAINHOSA_HINT_BYTES);
    }
    return TAINHOSA_OK;
}

static void put_le(uint8_t *p, uint64_t n, size_t count)
{
    for (size_t i = 0; i < count; i++) {
        p[i] = (uint8_t)(n >> 8 * i);
    }
}

/* Puts the type and the length of a tag, and says where its value goes. */
static uint8_t *put_tag(uint8_t *p, int row)
{
    put_le(p, plain_types[row], 2);
    put_le(p + 2, lengths[row], 2);
    return p + 4;
}

static uint8_t *put_number(uint8_t *p, int row, uint64_t n)
{
    put_le(put_tag(p, row), n, lengths[row]);
    return p + 4 + lengths[row];
}

static uint8_t *put_bytes(uint8_t *p, int row, const uint8_t *bytes)
{
    memcpy(put_tag(p, row), bytes, lengths[row]);
    return p + 4 + lengths[row];
}

/* The header that tainhosa_write_header writes of these values. */
static void write_form(uint8_t form[TAINHOSA_HEADER_LENGTH], const uint64_t numbers[6], const uint8_t bytes[128])
{
    uint8_t *p = form + TAINHOSA_FIRST_TAG;
    memset(form, TAINHOSA_PADDING, TAINHOSA_HEADER_LENGTH);
    put_le(form + TAINHOSA_MAGIC_AT, TAINHOSA_MAGIC, 4);
    put_le(form + TAINHOSA_FIRMWARE_SIZE_AT, numbers[TAINHOSA_HEADER_SIZE], 4);
    p = put_number(p, VERSION, numbers[TAINHOSA_HEADER_VERSION]);
    p = put_number(p, TIMESTAMP, numbers[TAINHOSA_HEADER_TIMESTAMP]);
    p = put_bytes(p, DIGEST, bytes + TAINHOSA_DIGEST_AT);
    p = put_bytes(p, SIGNATURE, bytes + TAINHOSA_SIGNATURE_AT);
    p = put_number(p, AUTH_TYPE, numbers[TAINHOSA_HEADER_AUTH_TYPE]);
    if (numbers[TAINHOSA_HEADER_HAS_HINT] != 0) {
        p = put_bytes(p, HINT, bytes + TAINHOSA_HINT_AT);
    }
    put_le(p, TAINHOSA_TYPE_END, 2);
}

/* Where the hint's tag stands in a sealed header. */
enum { HINT_PLACE = 138 };

uint32_t plain_read_sealed(const uint8_t *input, size_t len, uint64_t numbers[6], uint8_t bytes[128])
{
    uint8_t form[TAINHOSA_HEADER_LENGTH];
    size_t place = 0;
    const uint32_t answer = plain_read_header(input, len, numbers, bytes);
    if (answer != TAINHOSA_OK) {
        return answer;
    }
    write_form(form, numbers, bytes);
    const size_t last = numbers[TAINHOSA_HEADER_HAS_HINT] != 0 ? sizeof form : HINT_PLACE;
    if (last == sizeof form && memcmp(input, form, sizeof form) == 0) {
        return TAINHOSA_OK;
    }
    while (place < last && input[place] == form[place]) {
        place++;
    }
    memset(numbers, 0, 6 * sizeof numbers[0]);
    memset(bytes, 0, 128);
    return refuse(numbers, TAINHOSA_NOT_SEALED, place);
}

/* ---- Image and flash */

/* What an image's header states: the firmware's size, the version, and the digest, as it stands there. */
struct stated {
    uint32_t size;
    uint32_t version;
    const uint8_t *digest;
};

/* A header that has `room` bytes with its firmware: 1 and what it states, or 0. */
static int read_stated(const uint8_t *header, size_t room, struct stated *s)
{
    uint64_t numbers[6];
    const uint8_t *value[ROWS];
    if (find_values(header, room, numbers, value) != TAINHOSA_OK) {
        return 0;
    }
    s->size = le32(header + TAINHOSA_FIRMWARE_SIZE_AT);
    s->version = le32(value[VERSION]);
    s->digest = value[DIGEST];
    return s->size <= room - TAINHOSA_HEADER_LENGTH;
}

/* The digest covers what the header has before the digest's tag, and then the firmware. */
static void start_image(struct sha256 *s, const uint8_t *header, const struct stated *stated)
{
    start(s);
    take(s, header, (size_t)(stated->digest - 4 - header));
}

static void digest_image(const uint8_t *image, const struct stated *stated, uint8_t digest[32])
{
    struct sha256 s;
    start_image(&s, image, stated);
    take(&s, image + TAINHOSA_HEADER_LENGTH, stated->size);
    finish(&s, digest);
}

int plain_check_image(const uint8_t *partition, size_t room, uint32_t *version)
{
    struct stated stated;
    uint8_t digest[32];
    if (!read_stated(partition, room, &stated)) {
        return 0;
    }
    digest_image(partition, &stated, digest);
    *version = stated.version;
    return memcmp(digest, stated.digest, sizeof digest) == 0;
}

int plain_sign_image(uint8_t *image, size_t room)
{
    struct stated stated;
    uint8_t digest[32];
    if (!read_stated(image, room, &stated)) {
        return 0;
    }
    digest_image(image, &stated, digest);
    memcpy(image + (stated.digest - image), digest, sizeof digest);
    return 1;
}

void plain_erase(uint8_t *sector, size_t size)
{
    memset(sector, 0xFF, size);
}

void plain_copy(uint8_t *target, const uint8_t *source, size_t size)
{
    memcpy(target, source, size);
}

/* ---- Mending */

/* An old image, as its header states it, and its digest so far: of the sectors that it has gone over. */
struct image {
    struct stated stated;
    struct sha256 digest;
};

/* Reads the header in sector 0, and begins the digest with it; the sector's firmware is yet to come. */
static int begin(struct image *image, const uint8_t *sector, size_t room)
{
    if (!read_stated(sector, room, &image->stated)) {
        return 0;
    }
    start_image(&image->digest, sector, &image->stated);
    return 1;
}

/* Both, if both headers are read and the second one is newer. */
static int begin_both(struct image *older, const uint8_t *older_at, struct image *newer, const uint8_t *newer_at, size_t room)
{
    return begin(older, older_at, room) && begin(newer, newer_at, room) && newer->stated.version > older->stated.version;
}

/* Goes over the firmware of sector i, if there is any. */
static void go_over(struct image *image, const uint8_t *sector, size_t i, size_t size)
{
    const size_t end = TAINHOSA_HEADER_LENGTH + (size_t)image->stated.size;
    const size_t from = i == 0 ? TAINHOSA_HEADER_LENGTH : 0;
    if (end > i * size + from) {
        const size_t to = end < (i + 1) * size ? end - i * size : size;
        take(&image->digest, sector + from, to - from);
    }
}

/* Whether the digest is the header's if sector i stands here, and those behind it in this partition. */
static int is_good(const struct image *image, const uint8_t *here, const uint8_t *behind, size_t i, size_t size)
{
    const size_t end = TAINHOSA_HEADER_LENGTH + (size_t)image->stated.size;
    struct image whole = *image;
    uint8_t digest[32];
    go_over(&whole, here, i, size);
    for (size_t j = i + 1; j * size < end; j++) {
        go_over(&whole, behind + j * size, j, size);
    }
    finish(&whole.digest, digest);
    return memcmp(digest, whole.stated.digest, sizeof digest) == 0;
}

static uint32_t write_mark(size_t sectors, size_t size, uint8_t *update, size_t sector, uint8_t flag, uint64_t numbers[3])
{
    uint64_t changed = 0;
    for (size_t i = 0; i + 1 < sectors; i += 2) {
        uint8_t *p = update + sectors * size - 2 - i / 2;
        const uint8_t low = i < sector ? 0x0 : i == sector ? flag : 0xF;
        const uint8_t high = i + 1 < sector ? 0x0 : i + 1 == sector ? flag : 0xF;
        const uint8_t byte = i + 2 < sectors ? (uint8_t)(high << 4 | low) : (uint8_t)((*p & 0xF0) | low);
        changed += byte != *p;
        *p = byte;
    }
    numbers[TAINHOSA_MEND_SECTOR] = sector;
    numbers[TAINHOSA_MEND_FLAG] = flag;
    numbers[TAINHOSA_MEND_CHANGED] = changed;
    return TAINHOSA_OK;
}

uint32_t plain_mend(size_t sectors, size_t size, const uint8_t *boot, uint8_t *update, const uint8_t *swap, uint64_t numbers[3])
{
    static const uint8_t flags[3] = {TAINHOSA_FLAG_UNTOUCHED, TAINHOSA_FLAG_SAVED, TAINHOSA_FLAG_MOVED};
    const size_t m = sectors - 1;
    const size_t room = m * size;
    struct image older;
    struct image newer;
    memset(numbers, 0, 3 * sizeof numbers[0]);
    for (size_t i = 0; i < m; i++) {
        const uint8_t *b = boot + i * size;
        const uint8_t *u = update + i * size;
        const uint8_t *const older_at[3] = {b, b, u};
        const uint8_t *const newer_at[3] = {u, swap, swap};
        for (int k = 0; k < 3; k++) {
            if (i == 0 && !begin_both(&older, older_at[k], &newer, newer_at[k], room)) {
                continue;
            }
            if (is_good(&newer, newer_at[k], update, i, size) && is_good(&older, older_at[k], boot, i, size)) {
                return write_mark(sectors, size, update, i, flags[k], numbers);
            }
        }
        /* Sector i has changed sides in every mark behind it; in sector 0 the headers have. */
        if (i == 0 && !begin_both(&older, u, &newer, b, room)) {
            return TAINHOSA_NO_MARK_FITS;
        }
        go_over(&older, u, i, size);
        go_over(&newer, b, i, size);
    }
    if (is_good(&newer, swap, swap, m, size) && is_good(&older, swap, swap, m, size)) {
        return write_mark(sectors, size, update, m, TAINHOSA_FLAG_EXCHANGED, numbers);
    }
    return TAINHOSA_NO_MARK_FITS;
}
