/*
 * The C interface, used whole: every constant, every call and every struct of include/tainhosa.h. What is expected is written out here
 * by the rules of documents 01 and 02 and the examples of FIPS 180-4, and nothing of it was made by the library; the digests that headers
 * state are sha256sum's. tests/c-interface compiles this file as C99, C11 and C++, and runs it.
 */
#define _DEFAULT_SOURCE
#include <stdio.h>
#include <string.h>
#include <sys/mman.h>

#include "tainhosa.h"
#include "tainhosa.h" /* twice does no harm: TAINHOSA_H */

static int tried, wrong;

static void expect(int line, const char *what, uint64_t is, uint64_t should) {
    tried++;
    if (is != should) {
        wrong++;
        printf("line %d: %s is %llu, and should be %llu\n", line, what, (unsigned long long)is, (unsigned long long)should);
    }
}

#define EQUAL(is, should) expect(__LINE__, #is, (uint64_t)(is), (uint64_t)(should))
#define SAME(one, other, length) EQUAL(memcmp(one, other, length), 0)
#define EVERY(bytes, from, to, value) EQUAL(filled(bytes, from, to, value), true)

/* Whether the bytes from one place to another, itself not counted, are all this one. It is watched over as the calls are. */
TAINHOSA_CALL static bool filled(const uint8_t *bytes, size_t from, size_t to, int value) {
    size_t i;
    for (i = from; i < to; i++) {
        if (bytes[i] != value) {
            return false;
        }
    }
    return true;
}

/* What a buffer holds before a call, so that a change is seen. */
enum { BEFORE = 0x5A };

/* ---- Headers and images by hand: the bytes as document 01 has them */

#define SIGNATURE_DIGITS \
    "000102030405060708090a0b0c0d0e0f101112131415161718191a1b1c1d1e1f" \
    "202122232425262728292a2b2c2d2e2f303132333435363738393a3b3c3d3e3f"
#define HINT_DIGITS "C0C1C2C3C4C5C6C7C8C9CACBCCCDCECFD0D1D2D3D4D5D6D7D8D9DADBDCDDDEDF"

static const struct {
    const char *message;
    const char *digest;
} fips[] = {
    {"", "e3b0c44298fc1c149afbf4c8996fb92427ae41e4649b934ca495991b7852b855"},
    {"abc", "ba7816bf8f01cfea414140de5dae2223b00361a396177a9cb410ff61f20015ad"},
    {"abcdbcdecdefdefgefghfghighijhijkijkljklmklmnlmnomnopnopq", "248d6a61d20638b8e5c026930c3e6039a33ce45964ff2167f6ecedd419db06c1"},
    {"abcdefghbcdefghicdefghijdefghijkefghijklfghijklmghijklmnhijklmnoijklmnopjklmnopqklmnopqrlmnopqrsmnopqrstnopqrstu",
     "cf5b16a778af8380036ce59e7b0492370b249b11e8f07a51afac45037afee9d1"},
};
enum { EMPTY, SHORT, LONG, LONGER };

/* What the headers below state, with such a firmware and version: the digest over their first 28 bytes and then the firmware. */
static const struct {
    int firmware;
    uint32_t version;
    const char *digest;
} stated[] = {
    {SHORT, 1, "7cd778523c6a51866234509d61f2c5bfa0372d9226e7b5a30d678cd6ad62600c"},
    {SHORT, 3, "1c42a1196c679f7e40fd37b89b229530fb8059e62bda3b674c12d5828a09bc8b"},
    {SHORT, 7, "42c7b9329254e2c3defdd7c08fc4a9af95786f81c9ab9135224bcaaca9f938e7"},
    {SHORT, 9, "b489741fb88f1fd7a24a4960c14041f49c83499a4ae071073ba7fa80cc2c7352"},
    {LONG, 0x04030201, "f2704ed8c18b167f5d15797b19cf746fb55b0f461ec39d8eb7157d141521edbe"},
    {LONGER, 2, "7972598fd53bdbc39f86da5bab27923d464cfa8f96b22d0fc77656e36c195d17"},
    {LONGER, 3, "0f1c4796744f6c840e1f0dd09f3f3351dfdaf34dcb7a522f444d092b238bb239"},
    {LONGER, 7, "095f54ffb4d964f94bbcede1b8125e835872d5ba1875a776e6557b7da03dd45f"},
    {LONGER, 8, "d3a20206be93365ca2dfba0c0671ffeb205bf65eaed6841e6aa3fb79acf23707"},
    {LONGER, 9, "c97a109ed67fa248d2ba228047ee3557bff5bc15265728440138cd9fe2e6d9f9"},
    {LONGER, 10, "581642cde6cfa2aa6a4c63f6f3de091cab08a6b25f242c1226399e39f4934f97"},
};

static const uint8_t *bytes_of(const char *text) { return (const uint8_t *)text; }

static uint8_t digit(char c) { return (uint8_t)(c <= '9' ? c - '0' : (c | 32) - 'a' + 10); }

static void from_hex(uint8_t *to, const char *digits) {
    for (; *digits != 0; digits += 2) {
        *to++ = (uint8_t)(digit(digits[0]) * 16 + digit(digits[1]));
    }
}

static void stated_digest(uint8_t *to, int firmware, uint32_t version) {
    size_t i = 0, count = sizeof stated / sizeof stated[0];
    while (i < count && (stated[i].firmware != firmware || stated[i].version != version)) {
        i++;
    }
    EQUAL(i < count, true);
    from_hex(to, stated[i < count ? i : 0].digest);
}

/* A number of so many bytes, low byte first. */
static void put(uint8_t *to, size_t count, uint64_t number) {
    size_t i;
    for (i = 0; i < count; i++) {
        to[i] = (uint8_t)(number >> (8 * i));
    }
}

static void put_tag(uint8_t *to, unsigned type, unsigned length) {
    put(to, 2, type);
    put(to + 2, 2, length);
}

/* The 256 bytes that the writer leaves: version as given, timestamp 1700000000, auth type 512, firmware an example of FIPS 180-4. */
static void put_header(uint8_t *to, int firmware, uint32_t version, bool has_hint) {
    memset(to, 0xFF, 256);
    memcpy(to, "\x43\x45\x52\x54", 4);
    put(to + 4, 4, strlen(fips[firmware].message));
    put_tag(to + 8, 0x0001, 4);
    put(to + 12, 4, version);
    put_tag(to + 16, 0x0002, 8);
    put(to + 20, 8, 1700000000);
    put_tag(to + 28, 0x0003, 32);
    stated_digest(to + 32, firmware, version);
    put_tag(to + 64, 0x0020, 64);
    from_hex(to + 68, SIGNATURE_DIGITS);
    put_tag(to + 132, 0x0030, 2);
    put(to + 136, 2, 512);
    if (has_hint) {
        put_tag(to + 138, 0x1000, 32);
        from_hex(to + 142, HINT_DIGITS);
        put(to + 174, 2, 0x0000);
    } else {
        put(to + 138, 2, 0x0000);
    }
}

/* One more tag in a header without a hint, of no value, behind the others at 138; the digest does not cover it. Then comes the end. */
static void put_one_more(uint8_t *header, unsigned type) {
    put_tag(header + 138, type, 0);
    put(header + 142, 2, 0x0000);
}

/* The header, and behind it the firmware: so many bytes of an image. */
static size_t put_image(uint8_t *to, int firmware, uint32_t version) {
    size_t length = strlen(fips[firmware].message);
    put_header(to, firmware, version, false);
    memcpy(to + 256, fips[firmware].message, length);
    return 256 + length;
}

/* ---- Constants that no call below takes or gives */

static void constants(void) {
    EQUAL(TAINHOSA_VERSION_MAJOR, 0);
    EQUAL(TAINHOSA_VERSION_MINOR, 8);
    EQUAL(TAINHOSA_VERSION_PATCH, 0);
    EQUAL(TAINHOSA_VERSION_NUMBER, 800);
    EQUAL(TAINHOSA_OK, 0);
    EQUAL(TAINHOSA_OUTSIDE_RULES, 1);
    EQUAL(TAINHOSA_WRONG_MAGIC, 2);
    EQUAL(TAINHOSA_WRONG_SIZE, 3);
    EQUAL(TAINHOSA_TAG_DOES_NOT_FIT, 4);
    EQUAL(TAINHOSA_TAG_WRONG_LENGTH, 5);
    EQUAL(TAINHOSA_TAG_REPEATED, 6);
    EQUAL(TAINHOSA_NO_END, 7);
    EQUAL(TAINHOSA_TAG_MISSING, 8);
    EQUAL(TAINHOSA_WRONG_DIGEST, 9);
    EQUAL(TAINHOSA_STATUS_NOT_ALLOWED, 10);
    EQUAL(TAINHOSA_FLAGS_MALFORMED, 11);
    EQUAL(TAINHOSA_BAD_BOOT, 12);
    EQUAL(TAINHOSA_NO_FALLBACK, 13);
    EQUAL(TAINHOSA_WRONG_TIME, 14);
    EQUAL(TAINHOSA_NOT_NEWER, 15);
    EQUAL(TAINHOSA_SHORT_HEADER, 16);
    EQUAL(TAINHOSA_NO_MARK_FITS, 17);
    EQUAL(TAINHOSA_TAG_NOT_UNDERSTOOD, 18);
    EQUAL(TAINHOSA_WRONG_TOTAL, 19);
    EQUAL(TAINHOSA_COUNT_TOO_HIGH, 20);
    EQUAL(TAINHOSA_NOT_SEALED, 21);
    EQUAL(TAINHOSA_LINE_NOT_UNDERSTOOD, 101);
    EQUAL(TAINHOSA_NAME_NOT_KNOWN, 102);
    EQUAL(TAINHOSA_VALUE_NOT_ALLOWED, 103);
    EQUAL(TAINHOSA_NAME_REPEATED, 104);
    EQUAL(TAINHOSA_NAME_MISSING, 105);
    EQUAL(TAINHOSA_HEADER_LENGTH, 256);
    EQUAL(TAINHOSA_PADDING, 0xFF);
    EQUAL(TAINHOSA_TYPE_END, 0x0000);
    EQUAL(TAINHOSA_FIRST_CRITICAL_TYPE, 0x8000);
    EQUAL(TAINHOSA_SECTORS_MIN, 2);
    EQUAL(TAINHOSA_SECTORS_MAX, 512);
    EQUAL(TAINHOSA_SIZE_UNIT, 256);
    EQUAL(TAINHOSA_SIZE_MIN, 256);
    EQUAL(TAINHOSA_SIZE_MAX, 131072);
    EQUAL(TAINHOSA_STATUS_NEW, 0xFF);
    EQUAL(TAINHOSA_STATUS_UPDATING, 0x70);
    EQUAL(TAINHOSA_STATUS_TESTING, 0x10);
    EQUAL(TAINHOSA_STATUS_SUCCESS, 0x00);
    EQUAL(TAINHOSA_REFUSED, 0);
    EQUAL(TAINHOSA_CUT, 1);
    EQUAL(TAINHOSA_RUN, 2);
    EQUAL(TAINHOSA_RUN_ON_TEST, 3);
    EQUAL(TAINHOSA_RUN_FALLEN_BACK, 4);
}

/* ---- SHA-256 */

static uint8_t million[1000000];

static void digests(void) {
    uint8_t should[TAINHOSA_DIGEST_BYTES], digest[TAINHOSA_DIGEST_BYTES + 1];
    size_t i;
    for (i = 0; i < sizeof fips / sizeof fips[0]; i++) {
        memset(digest, BEFORE, sizeof digest);
        EQUAL(tainhosa_sha256(bytes_of(fips[i].message), strlen(fips[i].message), digest, 32), TAINHOSA_OK);
        from_hex(should, fips[i].digest);
        SAME(digest, should, 32);
        EQUAL(digest[32], BEFORE);
    }
    memset(million, 'a', sizeof million);
    EQUAL(tainhosa_sha256(million, sizeof million, digest, 32), TAINHOSA_OK);
    from_hex(should, "cdc76e5c9914fb9281a1c7e284d73e67f1809a48a497200e046d39ccc7112cd0");
    SAME(digest, should, 32);
    memset(digest, BEFORE, sizeof digest);
    EQUAL(tainhosa_sha256(bytes_of("abc"), 3, digest, 31), TAINHOSA_OUTSIDE_RULES);
    EQUAL(tainhosa_sha256(bytes_of("abc"), 3, digest, 33), TAINHOSA_OUTSIDE_RULES);
    EVERY(digest, 0, sizeof digest, BEFORE);
}

/* ---- The header */

/* The struct holds what put_header states. */
static void expect_values(const struct tainhosa_header *header, int firmware, uint32_t version, bool has_hint) {
    uint8_t digest[32], signature[64], hint[32];
    stated_digest(digest, firmware, version);
    from_hex(signature, SIGNATURE_DIGITS);
    from_hex(hint, HINT_DIGITS);
    EQUAL(header->place, 0);
    EQUAL(header->size, strlen(fips[firmware].message));
    EQUAL(header->version, version);
    EQUAL(header->timestamp, 1700000000);
    EQUAL(header->auth_type, 512);
    EQUAL(header->has_hint, has_hint);
    SAME(header->digest, digest, 32);
    SAME(header->signature, signature, 64);
    if (has_hint) {
        SAME(header->hint, hint, 32);
    } else {
        EVERY(header->hint, 0, 32, 0);
    }
}

/* Beside a refusal the struct holds the place, and nothing else. */
static void expect_blank(const struct tainhosa_header *header, uint64_t place) {
    EQUAL(header->place, place);
    EQUAL(header->size, 0);
    EQUAL(header->version, 0);
    EQUAL(header->timestamp, 0);
    EQUAL(header->auth_type, 0);
    EQUAL(header->has_hint, false);
    EVERY(header->digest, 0, 32, 0);
    EVERY(header->signature, 0, 64, 0);
    EVERY(header->hint, 0, 32, 0);
}

static void fill_values(struct tainhosa_header *header, int firmware, uint32_t version, bool has_hint) {
    header->place = BEFORE;
    header->size = (uint32_t)strlen(fips[firmware].message);
    header->version = version;
    header->timestamp = 1700000000;
    header->auth_type = 512;
    header->has_hint = has_hint;
    stated_digest(header->digest, firmware, version);
    from_hex(header->signature, SIGNATURE_DIGITS);
    from_hex(header->hint, HINT_DIGITS);
}

static void writing(void) {
    uint8_t should[256], out[257], bytes[TAINHOSA_HEADER_BYTES + 1];
    uint64_t place[TAINHOSA_WRITE_NUMBERS + 1];
    struct tainhosa_header header;
    int has_hint;
    EQUAL(TAINHOSA_HEADER_BYTES, 128);
    EQUAL(TAINHOSA_WRITE_NUMBERS, 1);
    memset(bytes, BEFORE, sizeof bytes);
    stated_digest(bytes + TAINHOSA_DIGEST_AT, SHORT, 7);
    from_hex(bytes + TAINHOSA_SIGNATURE_AT, SIGNATURE_DIGITS);
    from_hex(bytes + TAINHOSA_HINT_AT, HINT_DIGITS);
    for (has_hint = 0; has_hint < 2; has_hint++) {
        put_header(should, SHORT, 7, has_hint != 0);
        memset(out, BEFORE, sizeof out);
        place[TAINHOSA_WRITE_PLACE] = BEFORE;
        EQUAL(tainhosa_write_header(out, 257, 3, 7, 1700000000, 512, has_hint != 0, bytes, 128, place, 1), TAINHOSA_OK);
        SAME(out, should, 256);
        EQUAL(out[256], BEFORE);
        EQUAL(place[TAINHOSA_WRITE_PLACE], 0);
        memset(out, BEFORE, sizeof out);
        place[0] = BEFORE;
        fill_values(&header, SHORT, 7, has_hint != 0);
        EQUAL(tainhosa_header_write(out, 257, &header, place), TAINHOSA_OK);
        SAME(out, should, 256);
        EQUAL(out[256], BEFORE);
        EQUAL(place[0], 0);
    }
    memset(out, BEFORE, sizeof out);
    place[0] = place[1] = BEFORE;
    EQUAL(tainhosa_write_header(out, 257, 3, 7, 0, 0, false, bytes, 127, place, 1), TAINHOSA_OUTSIDE_RULES);
    EQUAL(tainhosa_write_header(out, 257, 3, 7, 0, 0, false, bytes, 129, place, 1), TAINHOSA_OUTSIDE_RULES);
    EQUAL(tainhosa_write_header(out, 257, 3, 7, 0, 0, false, bytes, 128, place, 0), TAINHOSA_OUTSIDE_RULES);
    EQUAL(tainhosa_write_header(out, 257, 3, 7, 0, 0, false, bytes, 128, place, 2), TAINHOSA_OUTSIDE_RULES);
    EQUAL(place[0], BEFORE);
    EQUAL(place[1], BEFORE);
    header.size = 0;
    EQUAL(tainhosa_header_write(out, 255, &header, place), TAINHOSA_SHORT_HEADER);
    EQUAL(place[0], 0);
    EQUAL(tainhosa_header_write(out, 256, &header, place), TAINHOSA_WRONG_SIZE);
    EQUAL(place[0], 4);
    EVERY(out, 0, sizeof out, BEFORE);
}

/* A header that is refused, with number and place. */
#define REFUSED_HEADER(input, length, number, at) \
    do { \
        struct tainhosa_header refused_header; \
        memset(&refused_header, BEFORE, sizeof refused_header); \
        EQUAL(tainhosa_header_read(input, length, &refused_header), number); \
        expect_blank(&refused_header, at); \
    } while (0)

static void reading(void) {
    static const struct {
        unsigned type;
        size_t at;
    } required[] = {
        {TAINHOSA_TYPE_VERSION, 8}, {TAINHOSA_TYPE_TIMESTAMP, 16}, {TAINHOSA_TYPE_DIGEST, 28},
        {TAINHOSA_TYPE_SIGNATURE, 64}, {TAINHOSA_TYPE_AUTH_TYPE, 132},
    };
    static const unsigned types[] = {0x0001, 0x0002, 0x0003, 0x0020, 0x0030};
    uint8_t input[257], bytes[TAINHOSA_HEADER_BYTES + 1], should[128];
    uint64_t numbers[TAINHOSA_HEADER_NUMBERS + 1];
    struct tainhosa_header header;
    size_t i;

    put_header(input, LONG, 0x04030201, true);
    EQUAL(input[TAINHOSA_MAGIC_AT] | input[1] << 8 | input[2] << 16 | input[3] << 24, TAINHOSA_MAGIC);
    EQUAL(input[TAINHOSA_FIRMWARE_SIZE_AT], 56);
    EQUAL(TAINHOSA_HEADER_NUMBERS, 6);
    memset(numbers, BEFORE, sizeof numbers);
    memset(bytes, BEFORE, sizeof bytes);
    EQUAL(tainhosa_read_header(input, 256, numbers, 6, bytes, 128), TAINHOSA_OK);
    EQUAL(numbers[TAINHOSA_HEADER_PLACE], 0);
    EQUAL(numbers[TAINHOSA_HEADER_SIZE], 56);
    EQUAL(numbers[TAINHOSA_HEADER_VERSION], 0x04030201);
    EQUAL(numbers[TAINHOSA_HEADER_TIMESTAMP], 1700000000);
    EQUAL(numbers[TAINHOSA_HEADER_AUTH_TYPE], 512);
    EQUAL(numbers[TAINHOSA_HEADER_HAS_HINT], 1);
    stated_digest(should, LONG, 0x04030201);
    SAME(bytes + TAINHOSA_DIGEST_AT, should, TAINHOSA_DIGEST_BYTES);
    from_hex(should, SIGNATURE_DIGITS);
    SAME(bytes + TAINHOSA_SIGNATURE_AT, should, TAINHOSA_SIGNATURE_BYTES);
    from_hex(should, HINT_DIGITS);
    SAME(bytes + TAINHOSA_HINT_AT, should, TAINHOSA_HINT_BYTES);
    EQUAL(bytes[128], BEFORE);
    memset(numbers, BEFORE, sizeof numbers);
    memset(bytes, BEFORE, sizeof bytes);
    EQUAL(tainhosa_read_header(input, 256, numbers, 5, bytes, 128), TAINHOSA_OUTSIDE_RULES);
    EQUAL(tainhosa_read_header(input, 256, numbers, 7, bytes, 128), TAINHOSA_OUTSIDE_RULES);
    EQUAL(tainhosa_read_header(input, 0, numbers, 6, bytes, 127), TAINHOSA_OUTSIDE_RULES);
    EQUAL(tainhosa_read_header(input, 256, numbers, 6, bytes, 129), TAINHOSA_OUTSIDE_RULES);
    EVERY((const uint8_t *)numbers, 0, sizeof numbers, BEFORE);
    EVERY(bytes, 0, sizeof bytes, BEFORE);

    EQUAL(tainhosa_header_read(input, 256, &header), TAINHOSA_OK);
    expect_values(&header, LONG, 0x04030201, true);
    put_header(input, SHORT, 7, false);
    input[256] = BEFORE;
    EQUAL(tainhosa_header_read(input, 257, &header), TAINHOSA_OK);
    expect_values(&header, SHORT, 7, false);

    REFUSED_HEADER(input, 255, TAINHOSA_SHORT_HEADER, 0);
    REFUSED_HEADER(input, 0, TAINHOSA_SHORT_HEADER, 0);
    input[3] ^= 1;
    REFUSED_HEADER(input, 256, TAINHOSA_WRONG_MAGIC, 0);
    put_header(input, SHORT, 7, false);
    put(input + 4, 4, 0);
    REFUSED_HEADER(input, 256, TAINHOSA_WRONG_SIZE, 4);
    put_header(input, SHORT, 7, false);
    put(input + 134, 2, 121);
    REFUSED_HEADER(input, 256, TAINHOSA_TAG_DOES_NOT_FIT, 132);
    put_header(input, SHORT, 7, false);
    put_tag(input + 138, 0x0001, 3);
    REFUSED_HEADER(input, 256, TAINHOSA_TAG_WRONG_LENGTH, 138);
    put_tag(input + 138, 0x0001, 4);
    REFUSED_HEADER(input, 256, TAINHOSA_TAG_REPEATED, 138);
    put_header(input, SHORT, 7, false);
    memset(input + 138, TAINHOSA_PADDING, 2);
    REFUSED_HEADER(input, 256, TAINHOSA_NO_END, 256);
    memset(input + TAINHOSA_FIRST_TAG, 0xFF, 248);
    REFUSED_HEADER(input, 256, TAINHOSA_NO_END, 256);
    input[255] = 0x01;
    REFUSED_HEADER(input, 256, TAINHOSA_TAG_DOES_NOT_FIT, 255);
    for (i = 0; i < 5; i++) {
        EQUAL(required[i].type, types[i]);
        put_header(input, SHORT, 7, false);
        put(input + required[i].at, 2, 0x0042);
        REFUSED_HEADER(input, 256, TAINHOSA_TAG_MISSING, types[i]);
    }
}

/* From type 8000 up a tag must be understood, and none is; lower types are skipped (document 02, five). */
static void critical_types(void) {
    uint8_t input[256];
    struct tainhosa_header header;
    unsigned high;

    /* None of these is in the table. */
    for (high = 0x00; high <= 0xFF; high++) {
        put_header(input, SHORT, 7, false);
        put_one_more(input, high << 8 | 0x42);
        if (high < 0x80) {
            EQUAL(tainhosa_header_read(input, 256, &header), TAINHOSA_OK);
            expect_values(&header, SHORT, 7, false);
        } else {
            REFUSED_HEADER(input, 256, TAINHOSA_TAG_NOT_UNDERSTOOD, 138);
        }
    }
    put_one_more(input, 0x7FFE);
    EQUAL(tainhosa_header_read(input, 256, &header), TAINHOSA_OK);
    put_one_more(input, 0x8000);
    REFUSED_HEADER(input, 256, TAINHOSA_TAG_NOT_UNDERSTOOD, 138);
    put_one_more(input, 0xFFFE);
    REFUSED_HEADER(input, 256, TAINHOSA_TAG_NOT_UNDERSTOOD, 138);

    /* Bytes FF 80 are padding and the low byte of type 0080. */
    put_header(input, SHORT, 7, false);
    input[138] = 0xFF;
    put_tag(input + 139, 0x0080, 0);
    put(input + 143, 2, 0x0000);
    EQUAL(tainhosa_header_read(input, 256, &header), TAINHOSA_OK);
    expect_values(&header, SHORT, 7, false);

    /* Behind padding; the first of two; a value up to the header's last byte, and no end; one that does not fit. */
    put_header(input, SHORT, 7, false);
    memset(input + 138, 0xFF, 2);
    put_tag(input + 240, 0x8000, 12);
    REFUSED_HEADER(input, 256, TAINHOSA_TAG_NOT_UNDERSTOOD, 240);
    put_tag(input + 141, 0x9000, 95);
    REFUSED_HEADER(input, 256, TAINHOSA_TAG_NOT_UNDERSTOOD, 141);
    put_tag(input + 141, 0x9000, 112);
    REFUSED_HEADER(input, 256, TAINHOSA_TAG_DOES_NOT_FIT, 141);
    put(input + 141, 4, 0xFFFFFFFF);
    put(input + 242, 2, 13);
    REFUSED_HEADER(input, 256, TAINHOSA_TAG_DOES_NOT_FIT, 240);

    /* Before another fault: the version is missing and the timestamp has a wrong length, or the magic or the size is wrong. */
    put_header(input, SHORT, 7, false);
    put(input + 8, 2, 0x8001);
    REFUSED_HEADER(input, 256, TAINHOSA_TAG_NOT_UNDERSTOOD, 8);
    put(input + 18, 2, 7);
    REFUSED_HEADER(input, 256, TAINHOSA_TAG_NOT_UNDERSTOOD, 8);
    put(input + 4, 4, 0);
    REFUSED_HEADER(input, 256, TAINHOSA_WRONG_SIZE, 4);
    input[0] ^= 1;
    REFUSED_HEADER(input, 256, TAINHOSA_WRONG_MAGIC, 0);

    /* Behind one: of a wrong length, repeated, or one that does not fit. Behind the end it is not read. */
    put_header(input, SHORT, 7, false);
    put_one_more(input, 0x8000);
    put(input + 8, 2, 0x0030);
    REFUSED_HEADER(input, 256, TAINHOSA_TAG_WRONG_LENGTH, 8);
    put_header(input, SHORT, 7, false);
    put_tag(input + 138, 0x0030, 2);
    put_tag(input + 144, 0x8000, 0);
    REFUSED_HEADER(input, 256, TAINHOSA_TAG_REPEATED, 138);
    put(input + 140, 2, 200);
    REFUSED_HEADER(input, 256, TAINHOSA_TAG_DOES_NOT_FIT, 138);
    put_header(input, SHORT, 7, false);
    put_tag(input + 140, 0x8000, 0);
    EQUAL(tainhosa_header_read(input, 256, &header), TAINHOSA_OK);
    expect_values(&header, SHORT, 7, false);
}

static void walking(void) {
    static const struct tainhosa_tag should[] = {
        {0, true, 8, TAINHOSA_TYPE_VERSION, TAINHOSA_VERSION_BYTES, 16},
        {0, true, 16, TAINHOSA_TYPE_TIMESTAMP, TAINHOSA_TIMESTAMP_BYTES, 28},
        {0, true, 28, TAINHOSA_TYPE_DIGEST, 32, 64},
        {0, true, 64, TAINHOSA_TYPE_SIGNATURE, 64, 132},
        {0, true, 132, TAINHOSA_TYPE_AUTH_TYPE, TAINHOSA_AUTH_TYPE_BYTES, 138},
        {0, true, 138, TAINHOSA_TYPE_HINT, 32, 174},
    };
    uint8_t input[256];
    uint64_t row[TAINHOSA_TAG_NUMBERS + 1];
    struct tainhosa_tag tag;
    size_t at = TAINHOSA_FIRST_TAG, i;

    EQUAL(TAINHOSA_TYPE_HINT, 0x1000);
    EQUAL(TAINHOSA_VERSION_BYTES, 4);
    EQUAL(TAINHOSA_TIMESTAMP_BYTES, 8);
    EQUAL(TAINHOSA_AUTH_TYPE_BYTES, 2);
    EQUAL(TAINHOSA_TAG_NUMBERS, 6);
    put_header(input, LONGER, 8, true);
    for (i = 0; i < 6; i++, at = tag.next) {
        EQUAL(tainhosa_tag_next(input, 256, at, &tag), TAINHOSA_OK);
        EQUAL(tag.refused_at, 0);
        EQUAL(tag.found, true);
        EQUAL(tag.place, should[i].place);
        EQUAL(tag.type, should[i].type);
        EQUAL(tag.length, should[i].length);
        EQUAL(tag.next, should[i].next);
    }
    for (i = 0; i < 2; i++) {
        EQUAL(tainhosa_tag_next(input, 256, 174, &tag), TAINHOSA_OK);
        EQUAL(tag.found, false);
        EQUAL(tag.place, 0);
        EQUAL(tag.next, 174);
    }
    memset(row, BEFORE, sizeof row);
    EQUAL(tainhosa_next_tag(input, 256, 8, row, 5), TAINHOSA_OUTSIDE_RULES);
    EQUAL(tainhosa_next_tag(input, 256, 8, row, 7), TAINHOSA_OUTSIDE_RULES);
    EVERY((const uint8_t *)row, 0, sizeof row, BEFORE);
    memset(input + 8, 0xFF, 248);
    put_tag(input + 250, 0x0042, 2);
    EQUAL(tainhosa_next_tag(input, 256, 8, row, 6), TAINHOSA_OK);
    EQUAL(row[TAINHOSA_TAG_REFUSED_AT], 0);
    EQUAL(row[TAINHOSA_TAG_FOUND], 1);
    EQUAL(row[TAINHOSA_TAG_PLACE], 250);
    EQUAL(row[TAINHOSA_TAG_TYPE], 0x42);
    EQUAL(row[TAINHOSA_TAG_LENGTH], 2);
    EQUAL(row[TAINHOSA_TAG_NEXT], 256);
    EQUAL(row[6], 0x5A5A5A5A5A5A5A5A);
    put(input + 250, 2, TAINHOSA_FIRST_CRITICAL_TYPE); /* given like any other */
    EQUAL(tainhosa_next_tag(input, 256, 8, row, 6), TAINHOSA_OK);
    EQUAL(row[TAINHOSA_TAG_REFUSED_AT], 0);
    EQUAL(row[TAINHOSA_TAG_FOUND], 1);
    EQUAL(row[TAINHOSA_TAG_PLACE], 250);
    EQUAL(row[TAINHOSA_TAG_TYPE], 0x8000);
    EQUAL(row[TAINHOSA_TAG_LENGTH], 2);
    EQUAL(row[TAINHOSA_TAG_NEXT], 256);
    put(input + 250, 2, 0xFFFE);
    EQUAL(tainhosa_tag_next(input, 256, 100, &tag), TAINHOSA_OK);
    EQUAL(tag.found, true);
    EQUAL(tag.place, 250);
    EQUAL(tag.type, 0xFFFE);
    EQUAL(tag.next, 256);
    EQUAL(tainhosa_tag_next(input, 256, 256, &tag), TAINHOSA_NO_END);
    EQUAL(tag.refused_at, 256);
    EQUAL(tag.found, false);
    EQUAL(tag.next, 256);
    EQUAL(tainhosa_tag_next(input, 255, 8, &tag), TAINHOSA_SHORT_HEADER);
    EQUAL(tag.refused_at, 0);
    EQUAL(tag.next, 8);
    put(input + 252, 2, 3);
    EQUAL(tainhosa_tag_next(input, 256, 9, &tag), TAINHOSA_TAG_DOES_NOT_FIT);
    EQUAL(tag.refused_at, 250);
    EQUAL(tag.found, false);
    EQUAL(tag.next, 9);
}

/* ---- Sealed headers (document 02, nine) */

static void sealed_writing(void) {
    uint8_t should[256], out[257], bytes[TAINHOSA_HEADER_BYTES + 1];
    uint64_t place[TAINHOSA_WRITE_NUMBERS + 1];
    struct tainhosa_header header;

    memset(bytes, BEFORE, sizeof bytes);
    stated_digest(bytes + TAINHOSA_DIGEST_AT, SHORT, 7);
    from_hex(bytes + TAINHOSA_SIGNATURE_AT, SIGNATURE_DIGITS);
    from_hex(bytes + TAINHOSA_HINT_AT, HINT_DIGITS);
    put_header(should, SHORT, 7, true);
    memset(out, BEFORE, sizeof out);
    place[TAINHOSA_WRITE_PLACE] = BEFORE;
    EQUAL(tainhosa_write_sealed(out, 257, 3, 7, 1700000000, 512, true, bytes, 128, place, 1), TAINHOSA_OK);
    SAME(out, should, 256);
    EQUAL(out[256], BEFORE);
    EQUAL(place[TAINHOSA_WRITE_PLACE], 0);
    memset(out, BEFORE, sizeof out);
    place[0] = BEFORE;
    fill_values(&header, SHORT, 7, true);
    EQUAL(tainhosa_sealed_write(out, 256, &header, place), TAINHOSA_OK);
    SAME(out, should, 256);
    EQUAL(out[256], BEFORE);
    EQUAL(place[0], 0);

    /* 1 comes before all, then 16, 3 and 21, each with all that come behind it. No byte changes. */
    memset(out, BEFORE, sizeof out);
    place[0] = place[1] = BEFORE;
    EQUAL(tainhosa_write_sealed(out, 257, 3, 7, 0, 0, true, bytes, 127, place, 1), TAINHOSA_OUTSIDE_RULES);
    EQUAL(tainhosa_write_sealed(out, 257, 3, 7, 0, 0, true, bytes, 129, place, 1), TAINHOSA_OUTSIDE_RULES);
    EQUAL(tainhosa_write_sealed(out, 257, 3, 7, 0, 0, true, bytes, 128, place, 0), TAINHOSA_OUTSIDE_RULES);
    EQUAL(tainhosa_write_sealed(out, 257, 3, 7, 0, 0, true, bytes, 128, place, 2), TAINHOSA_OUTSIDE_RULES);
    EQUAL(tainhosa_write_sealed(out, 255, 0, 7, 0, 0, false, bytes, 127, place, 1), TAINHOSA_OUTSIDE_RULES);
    EQUAL(tainhosa_write_sealed(out, 255, 0, 7, 0, 0, false, bytes, 128, place, 2), TAINHOSA_OUTSIDE_RULES);
    EQUAL(place[0], BEFORE);
    EQUAL(place[1], BEFORE);
    header.has_hint = false;
    EQUAL(tainhosa_sealed_write(out, 256, &header, place), TAINHOSA_NOT_SEALED);
    EQUAL(place[0], 138);
    header.size = 0;
    EQUAL(tainhosa_sealed_write(out, 256, &header, place), TAINHOSA_WRONG_SIZE);
    EQUAL(place[0], 4);
    EQUAL(tainhosa_sealed_write(out, 255, &header, place), TAINHOSA_SHORT_HEADER);
    EQUAL(place[0], 0);
    EQUAL(tainhosa_write_sealed(out, 0, 0, 7, 0, 0, false, bytes, 128, place, 1), TAINHOSA_SHORT_HEADER);
    EQUAL(tainhosa_write_sealed(out, 257, 0, 7, 0, 0, true, bytes, 128, place, 1), TAINHOSA_WRONG_SIZE);
    EQUAL(tainhosa_write_sealed(out, 257, 3, 7, 0, 0, false, bytes, 128, place, 1), TAINHOSA_NOT_SEALED);
    EQUAL(place[0], 138);
    EQUAL(place[1], BEFORE);
    EVERY(out, 0, sizeof out, BEFORE);
}

/* The sealed reader refuses it so. */
static void expect_not_sealed(int line, const uint8_t *input, size_t length, uint32_t number, uint64_t place) {
    struct tainhosa_header header;
    memset(&header, BEFORE, sizeof header);
    expect(line, "tainhosa_sealed_read", tainhosa_sealed_read(input, length, &header), number);
    expect(line, "the place", header.place, place);
    expect_blank(&header, place);
}

/* The same of 21: the reader takes the header. */
static void expect_only_read(int line, const uint8_t *input, uint64_t place) {
    struct tainhosa_header header;
    expect(line, "tainhosa_header_read", tainhosa_header_read(input, 256, &header), TAINHOSA_OK);
    expect_not_sealed(line, input, 256, TAINHOSA_NOT_SEALED, place);
}

#define NOT_SEALED(input, at) expect_only_read(__LINE__, input, at)
#define REFUSED_SEALED(input, length, number, at) expect_not_sealed(__LINE__, input, length, number, at)

/* Moves what stands from here to the end and its two bytes on by so many, and says where the room for them is. */
static uint8_t *make_room(uint8_t *header, size_t at, size_t room) {
    memmove(header + at + room, header + at, 176 - at);
    return header + at;
}

static void sealed_reading(void) {
    /* Where the tags of a sealed header stand, and its end; their types. */
    static const size_t places[] = {8, 16, 28, 64, 132, 138, 174};
    static const unsigned types[] = {0x0001, 0x0002, 0x0003, 0x0020, 0x0030, 0x1000, 0x0000};
    uint8_t input[257], bytes[TAINHOSA_HEADER_BYTES + 1], should[128];
    uint64_t numbers[TAINHOSA_HEADER_NUMBERS + 1];
    struct tainhosa_header header;
    size_t i;

    put_header(input, LONG, 0x04030201, true);
    memset(numbers, BEFORE, sizeof numbers);
    memset(bytes, BEFORE, sizeof bytes);
    EQUAL(tainhosa_read_sealed(input, 256, numbers, 6, bytes, 128), TAINHOSA_OK);
    EQUAL(numbers[TAINHOSA_HEADER_PLACE], 0);
    EQUAL(numbers[TAINHOSA_HEADER_SIZE], 56);
    EQUAL(numbers[TAINHOSA_HEADER_VERSION], 0x04030201);
    EQUAL(numbers[TAINHOSA_HEADER_TIMESTAMP], 1700000000);
    EQUAL(numbers[TAINHOSA_HEADER_AUTH_TYPE], 512);
    EQUAL(numbers[TAINHOSA_HEADER_HAS_HINT], 1);
    EQUAL(numbers[6], 0x5A5A5A5A5A5A5A5A);
    stated_digest(should, LONG, 0x04030201);
    SAME(bytes + TAINHOSA_DIGEST_AT, should, 32);
    from_hex(should, SIGNATURE_DIGITS);
    SAME(bytes + TAINHOSA_SIGNATURE_AT, should, 64);
    from_hex(should, HINT_DIGITS);
    SAME(bytes + TAINHOSA_HINT_AT, should, 32);
    EQUAL(bytes[128], BEFORE);
    memset(numbers, BEFORE, sizeof numbers);
    memset(bytes, BEFORE, sizeof bytes);
    EQUAL(tainhosa_read_sealed(input, 256, numbers, 5, bytes, 128), TAINHOSA_OUTSIDE_RULES);
    EQUAL(tainhosa_read_sealed(input, 256, numbers, 7, bytes, 128), TAINHOSA_OUTSIDE_RULES);
    EQUAL(tainhosa_read_sealed(input, 0, numbers, 6, bytes, 127), TAINHOSA_OUTSIDE_RULES);
    EQUAL(tainhosa_read_sealed(input, 256, numbers, 6, bytes, 129), TAINHOSA_OUTSIDE_RULES);
    EVERY((const uint8_t *)numbers, 0, sizeof numbers, BEFORE);
    EVERY(bytes, 0, sizeof bytes, BEFORE);
    input[256] = BEFORE;
    EQUAL(tainhosa_sealed_read(input, 257, &header), TAINHOSA_OK);
    expect_values(&header, LONG, 0x04030201, true);

    /* Padding before each tag and before the end; a skipped tag there, which may differ in the second byte of its type first. */
    for (i = 0; i < 7; i++) {
        put_header(input, SHORT, 7, true);
        make_room(input, places[i], 1)[0] = TAINHOSA_PADDING;
        NOT_SEALED(input, places[i]);
        put_header(input, SHORT, 7, true);
        memset(make_room(input, places[i], 80), TAINHOSA_PADDING, 80);
        NOT_SEALED(input, places[i]);
        put_header(input, SHORT, 7, true);
        put_tag(make_room(input, places[i], 4), 0x7FFE, 0);
        NOT_SEALED(input, places[i]);
        put_header(input, SHORT, 7, true);
        put_tag(make_room(input, places[i], 80), types[i] | 0x4200, 76);
        NOT_SEALED(input, places[i] + 1);
    }

    /* Another order: the first two tags, and the auth type behind the hint. */
    put_header(input, SHORT, 7, true);
    memmove(input + 8, input + 16, 12);
    put_tag(input + 20, 0x0001, 4);
    put(input + 24, 4, 7);
    NOT_SEALED(input, 8);
    put_header(input, SHORT, 7, true);
    memmove(input + 132, input + 138, 36);
    put_tag(input + 168, 0x0030, 2);
    put(input + 172, 2, 512);
    NOT_SEALED(input, 132);

    /* Each byte behind the end. */
    put_header(input, SHORT, 7, true);
    for (i = 176; i < 256; i++) {
        input[i] = i % 2 == 0 ? 0x00 : 0xFE;
        NOT_SEALED(input, i);
        input[i] = 0xFF;
    }
    EQUAL(tainhosa_sealed_read(input, 256, &header), TAINHOSA_OK);
    expect_values(&header, SHORT, 7, true);
    put_tag(input + 176, 0x1000, 32); /* not read there */
    NOT_SEALED(input, 176);

    /* Without a hint at 138, also where a byte behind that differs; a byte before it comes first. */
    put_header(input, SHORT, 7, false);
    NOT_SEALED(input, 138);
    input[250] = 0;
    NOT_SEALED(input, 138);
    put_header(input, SHORT, 7, true);
    put(input + 138, 2, 0x1100);
    NOT_SEALED(input, 138);
    put(input + 138, 2, 0x0000);
    NOT_SEALED(input, 138);
    put_header(input, SHORT, 7, false);
    make_room(input, 138, 1)[0] = TAINHOSA_PADDING;
    NOT_SEALED(input, 138);
    put_header(input, SHORT, 7, false);
    make_room(input, 132, 1)[0] = TAINHOSA_PADDING;
    NOT_SEALED(input, 132);
    put_header(input, SHORT, 7, false);
    put_tag(make_room(input, 64, 4), 0x0120, 0);
    NOT_SEALED(input, 65);

    /* What the reader refuses comes first, with padding and without: too few bytes, size 0, a wrong magic. */
    put_header(input, SHORT, 7, true);
    REFUSED_SEALED(input, 255, TAINHOSA_SHORT_HEADER, 0);
    REFUSED_SEALED(input, 0, TAINHOSA_SHORT_HEADER, 0);
    make_room(input, 8, 1)[0] = TAINHOSA_PADDING;
    NOT_SEALED(input, 8);
    REFUSED_SEALED(input, 255, TAINHOSA_SHORT_HEADER, 0);
    put(input + 4, 4, 0);
    REFUSED_SEALED(input, 256, TAINHOSA_WRONG_SIZE, 4);
    input[3] ^= 1;
    REFUSED_SEALED(input, 256, TAINHOSA_WRONG_MAGIC, 0);

    /* So it does in the tags, which the padding at 8 moves on by one; no hint is no refusal of the reader. */
    for (i = 0; i < 6; i++) {
        put_header(input, SHORT, 7, true);
        make_room(input, 8, 1)[0] = TAINHOSA_PADDING;
        put(input + places[i] + 1, 2, 0x0042);
        if (types[i] == TAINHOSA_TYPE_HINT) {
            NOT_SEALED(input, 8);
        } else {
            REFUSED_SEALED(input, 256, TAINHOSA_TAG_MISSING, types[i]);
        }
        put(input + places[i] + 1, 2, 0x8000);
        REFUSED_SEALED(input, 256, TAINHOSA_TAG_NOT_UNDERSTOOD, places[i] + 1);
        put_tag(input + places[i] + 1, types[i], 0);
        REFUSED_SEALED(input, 256, TAINHOSA_TAG_WRONG_LENGTH, places[i] + 1);
        put(input + places[i] + 3, 2, 256);
        REFUSED_SEALED(input, 256, TAINHOSA_TAG_DOES_NOT_FIT, places[i] + 1);
    }
    put_header(input, SHORT, 7, true);
    make_room(input, 8, 1)[0] = TAINHOSA_PADDING;
    put_tag(input + 175, 0x0030, 2);
    REFUSED_SEALED(input, 256, TAINHOSA_TAG_REPEATED, 175);
    put_header(input, SHORT, 7, true);
    memset(input + 174, TAINHOSA_PADDING, 2);
    REFUSED_SEALED(input, 256, TAINHOSA_NO_END, 256);
    put_header(input, SHORT, 7, false);
    memset(input + 138, TAINHOSA_PADDING, 2);
    REFUSED_SEALED(input, 256, TAINHOSA_NO_END, 256);
}

/* Two sealed headers have the same values exactly if their bytes are equal: one value more or less, and each byte that holds one. */
static void two_sealed(void) {
    uint8_t one[256], other[256];
    uint64_t place;
    struct tainhosa_header header, changed, read;
    size_t i;

    fill_values(&header, SHORT, 7, true);
    memset(one, 0x00, sizeof one);
    memset(other, 0xFF, sizeof other);
    EQUAL(tainhosa_sealed_write(one, 256, &header, &place), TAINHOSA_OK);
    EQUAL(tainhosa_sealed_write(other, 256, &header, &place), TAINHOSA_OK);
    SAME(one, other, 256);
    for (i = 0; i < 4 + 128; i++) {
        changed = header;
        if (i == 0) {
            changed.size++;
        } else if (i == 1) {
            changed.version--;
        } else if (i == 2) {
            changed.timestamp += (uint64_t)1 << 63;
        } else if (i == 3) {
            changed.auth_type++;
        } else if (i < 4 + 32) {
            changed.digest[i - 4] ^= 1;
        } else if (i < 4 + 96) {
            changed.signature[i - 36] ^= 0x80;
        } else {
            changed.hint[i - 100] ^= 0x10;
        }
        EQUAL(tainhosa_sealed_write(other, 256, &changed, &place), TAINHOSA_OK);
        EQUAL(memcmp(one, other, 256) != 0, true);
        EQUAL(tainhosa_sealed_read(other, 256, &read), TAINHOSA_OK);
        EQUAL(read.size, changed.size);
        EQUAL(read.version, changed.version);
        EQUAL(read.timestamp, changed.timestamp);
        EQUAL(read.auth_type, changed.auth_type);
        EQUAL(read.has_hint, true);
        SAME(read.digest, changed.digest, 32);
        SAME(read.signature, changed.signature, 64);
        SAME(read.hint, changed.hint, 32);
        EQUAL(tainhosa_sealed_write(other, 256, &header, &place), TAINHOSA_OK);
        SAME(one, other, 256);
    }
}

/* ---- The release sheet */

#define VERSION_LINE "version 7\n"
#define TIMESTAMP_LINE "timestamp 1700000000\n"
#define AUTH_LINE "auth 512\n"
#define SIGNATURE_LINE "signature " SIGNATURE_DIGITS "\n"
#define HINT_LINE "hint " HINT_DIGITS "\n"

static void expect_sheet(int line, const char *text, bool has_hint) {
    uint8_t signature[64], hint[32];
    struct tainhosa_sheet sheet;
    from_hex(signature, SIGNATURE_DIGITS);
    from_hex(hint, HINT_DIGITS);
    memset(&sheet, BEFORE, sizeof sheet);
    expect(line, "tainhosa_sheet_read", tainhosa_sheet_read(bytes_of(text), strlen(text), &sheet), TAINHOSA_OK);
    expect(line, "line", sheet.line, 0);
    expect(line, "version", sheet.version, 7);
    expect(line, "timestamp", sheet.timestamp, 1700000000);
    expect(line, "auth_type", sheet.auth_type, 512);
    expect(line, "has_hint", sheet.has_hint, has_hint);
    expect(line, "signature", memcmp(sheet.signature, signature, 64) == 0, true);
    expect(line, "hint", has_hint ? memcmp(sheet.hint, hint, 32) == 0 : filled(sheet.hint, 0, 32, 0), true);
}

static void expect_no_sheet(int line, const char *text, uint32_t number, uint64_t refused_line) {
    struct tainhosa_sheet sheet;
    memset(&sheet, BEFORE, sizeof sheet);
    expect(line, "tainhosa_sheet_read", tainhosa_sheet_read(bytes_of(text), strlen(text), &sheet), number);
    expect(line, "line", sheet.line, refused_line);
    expect(line, "version", sheet.version, 0);
    expect(line, "timestamp", sheet.timestamp, 0);
    expect(line, "auth_type", sheet.auth_type, 0);
    expect(line, "has_hint", sheet.has_hint, false);
    expect(line, "signature", filled(sheet.signature, 0, 64, 0), true);
    expect(line, "hint", filled(sheet.hint, 0, 32, 0), true);
}

#define SHEET(text, has_hint) expect_sheet(__LINE__, text, has_hint)
#define NO_SHEET(text, number, line) expect_no_sheet(__LINE__, text, number, line)

static void sheets(void) {
    static const char largest[] =
        "version 4294967295\ntimestamp 18446744073709551615\nauth 65535\n" SIGNATURE_LINE "hint " HINT_DIGITS;
    static const char sixty_three[] = "C0C1C2C3C4C5C6C7C8C9CACBCCCDCECFD0D1D2D3D4D5D6D7D8D9DADBDCDDDED";
    uint8_t bytes[TAINHOSA_SHEET_BYTES + 1], should[64];
    uint64_t numbers[TAINHOSA_SHEET_NUMBERS + 1];
    char text[512];

    SHEET(VERSION_LINE TIMESTAMP_LINE AUTH_LINE SIGNATURE_LINE HINT_LINE, true);
    SHEET(VERSION_LINE TIMESTAMP_LINE AUTH_LINE SIGNATURE_LINE "hint no", false);
    SHEET("\n# release\n\n" HINT_LINE SIGNATURE_LINE "#\n" AUTH_LINE TIMESTAMP_LINE "version 000000000000000000000000007\n\n\n#", true);

    EQUAL(TAINHOSA_SHEET_NUMBERS, 5);
    EQUAL(TAINHOSA_SHEET_BYTES, 96);
    memset(numbers, BEFORE, sizeof numbers);
    memset(bytes, BEFORE, sizeof bytes);
    EQUAL(tainhosa_read_sheet(bytes_of(largest), strlen(largest), numbers, 5, bytes, 96), TAINHOSA_OK);
    EQUAL(numbers[TAINHOSA_SHEET_LINE], 0);
    EQUAL(numbers[TAINHOSA_SHEET_VERSION], 0xFFFFFFFF);
    EQUAL(numbers[TAINHOSA_SHEET_TIMESTAMP], UINT64_MAX);
    EQUAL(numbers[TAINHOSA_SHEET_AUTH_TYPE], 0xFFFF);
    EQUAL(numbers[TAINHOSA_SHEET_HAS_HINT], 1);
    EQUAL(numbers[5], 0x5A5A5A5A5A5A5A5A);
    from_hex(should, SIGNATURE_DIGITS);
    SAME(bytes + TAINHOSA_SHEET_SIGNATURE_AT, should, 64);
    from_hex(should, HINT_DIGITS);
    SAME(bytes + TAINHOSA_SHEET_HINT_AT, should, 32);
    EQUAL(bytes[96], BEFORE);
    memset(numbers, BEFORE, sizeof numbers);
    memset(bytes, BEFORE, sizeof bytes);
    EQUAL(tainhosa_read_sheet(bytes_of(largest), strlen(largest), numbers, 4, bytes, 96), TAINHOSA_OUTSIDE_RULES);
    EQUAL(tainhosa_read_sheet(bytes_of(largest), strlen(largest), numbers, 6, bytes, 96), TAINHOSA_OUTSIDE_RULES);
    EQUAL(tainhosa_read_sheet(bytes_of(""), 0, numbers, 5, bytes, 95), TAINHOSA_OUTSIDE_RULES);
    EQUAL(tainhosa_read_sheet(bytes_of(largest), strlen(largest), numbers, 5, bytes, 97), TAINHOSA_OUTSIDE_RULES);
    EVERY((const uint8_t *)numbers, 0, sizeof numbers, BEFORE);
    EVERY(bytes, 0, sizeof bytes, BEFORE);

    NO_SHEET("version", TAINHOSA_LINE_NOT_UNDERSTOOD, 1);
    NO_SHEET("\n# a comment\nversion=7\n", TAINHOSA_LINE_NOT_UNDERSTOOD, 3);
    NO_SHEET("auth 512\nversion\nversion x\n", TAINHOSA_LINE_NOT_UNDERSTOOD, 2);
    NO_SHEET("Version 7\n", TAINHOSA_NAME_NOT_KNOWN, 1);
    NO_SHEET("\n version 7\n", TAINHOSA_NAME_NOT_KNOWN, 2);
    NO_SHEET("version 7\nversions 7\nversion 7\n", TAINHOSA_NAME_NOT_KNOWN, 2);
    NO_SHEET(" ", TAINHOSA_NAME_NOT_KNOWN, 1);
    NO_SHEET("version ", TAINHOSA_VALUE_NOT_ALLOWED, 1);
    NO_SHEET("version  7", TAINHOSA_VALUE_NOT_ALLOWED, 1);
    NO_SHEET("version 7 \n", TAINHOSA_VALUE_NOT_ALLOWED, 1);
    NO_SHEET("version 7\r\n", TAINHOSA_VALUE_NOT_ALLOWED, 1);
    NO_SHEET("version +7\n", TAINHOSA_VALUE_NOT_ALLOWED, 1);
    NO_SHEET("version 0x7\n", TAINHOSA_VALUE_NOT_ALLOWED, 1);
    NO_SHEET("version 4294967296\n", TAINHOSA_VALUE_NOT_ALLOWED, 1);
    NO_SHEET("timestamp 18446744073709551616\n", TAINHOSA_VALUE_NOT_ALLOWED, 1);
    NO_SHEET("timestamp 99999999999999999999999999\n", TAINHOSA_VALUE_NOT_ALLOWED, 1);
    NO_SHEET("auth 65536\n", TAINHOSA_VALUE_NOT_ALLOWED, 1);
    NO_SHEET("signature " SIGNATURE_DIGITS "0\n", TAINHOSA_VALUE_NOT_ALLOWED, 1);
    NO_SHEET("signature " HINT_DIGITS "\n", TAINHOSA_VALUE_NOT_ALLOWED, 1);
    NO_SHEET("signature no\n", TAINHOSA_VALUE_NOT_ALLOWED, 1);
    NO_SHEET("hint yes\n", TAINHOSA_VALUE_NOT_ALLOWED, 1);
    NO_SHEET("hint No\n", TAINHOSA_VALUE_NOT_ALLOWED, 1);
    snprintf(text, sizeof text, "hint %s\n", sixty_three);
    NO_SHEET(text, TAINHOSA_VALUE_NOT_ALLOWED, 1);
    snprintf(text, sizeof text, "version 1\nhint %sg\n", sixty_three);
    NO_SHEET(text, TAINHOSA_VALUE_NOT_ALLOWED, 2);
    NO_SHEET("version 7\nversion 7\n", TAINHOSA_NAME_REPEATED, 2);
    NO_SHEET("hint no\n\nhint no", TAINHOSA_NAME_REPEATED, 3);
    NO_SHEET("version 7\nversion seven\n", TAINHOSA_VALUE_NOT_ALLOWED, 2);
    NO_SHEET("", TAINHOSA_NAME_MISSING, TAINHOSA_TYPE_VERSION);
    NO_SHEET("# nothing\n", TAINHOSA_NAME_MISSING, 0x0001);
    NO_SHEET(VERSION_LINE SIGNATURE_LINE, TAINHOSA_NAME_MISSING, 0x0002);
    NO_SHEET(VERSION_LINE TIMESTAMP_LINE AUTH_LINE HINT_LINE, TAINHOSA_NAME_MISSING, 0x0020);
    NO_SHEET(VERSION_LINE TIMESTAMP_LINE SIGNATURE_LINE, TAINHOSA_NAME_MISSING, 0x0030);
    NO_SHEET(VERSION_LINE TIMESTAMP_LINE AUTH_LINE SIGNATURE_LINE, TAINHOSA_NAME_MISSING, 0x1000);
}

static void making(void) {
    static const char text[] = VERSION_LINE TIMESTAMP_LINE AUTH_LINE SIGNATURE_LINE HINT_LINE;
    const uint8_t *firmware = bytes_of(fips[LONGER].message);
    const size_t length = 112, too_long = (size_t)1 << 32;
    uint8_t out[257], should[256], bytes[TAINHOSA_SHEET_BYTES + 1];
    uint64_t place[TAINHOSA_WRITE_NUMBERS + 1];
    struct tainhosa_sheet sheet;
    void *huge;
    size_t more;

    put_header(should, LONGER, 7, true);
    EQUAL(tainhosa_sheet_read(bytes_of(text), strlen(text), &sheet), TAINHOSA_OK);
    memset(out, BEFORE, sizeof out);
    place[0] = BEFORE;
    EQUAL(tainhosa_header_make(out, 257, firmware, length, &sheet, place), TAINHOSA_OK);
    SAME(out, should, 256);
    EQUAL(out[256], BEFORE);
    EQUAL(place[0], 0);
    memset(bytes, BEFORE, sizeof bytes);
    from_hex(bytes + TAINHOSA_SHEET_SIGNATURE_AT, SIGNATURE_DIGITS);
    memset(out, BEFORE, sizeof out);
    place[TAINHOSA_WRITE_PLACE] = BEFORE;
    put_header(should, LONGER, 7, false);
    EQUAL(tainhosa_make_header(out, 256, firmware, length, 7, 1700000000, 512, false, bytes, 96, place, 1), TAINHOSA_OK);
    SAME(out, should, 256);
    EQUAL(out[256], BEFORE);
    EQUAL(place[TAINHOSA_WRITE_PLACE], 0);

    /* Signature, auth type and hint have no say in the digest; the version has. */
    memset(bytes, 0xFF, sizeof bytes);
    EQUAL(tainhosa_make_header(out, 256, firmware, length, 7, 1700000000, 0, true, bytes, 96, place, 1), TAINHOSA_OK);
    SAME(out, should, 64);
    EVERY(out, 68, 132, 0xFF);
    stated_digest(should + 32, LONGER, 8);
    EQUAL(tainhosa_make_header(out, 256, firmware, length, 8, 1700000000, 0, true, bytes, 96, place, 1), TAINHOSA_OK);
    SAME(out + 32, should + 32, 32);

    memset(out, BEFORE, sizeof out);
    place[0] = place[1] = BEFORE;
    EQUAL(tainhosa_make_header(out, 0, firmware, length, 7, 0, 0, false, bytes, 95, place, 1), TAINHOSA_OUTSIDE_RULES);
    EQUAL(tainhosa_make_header(out, 256, firmware, length, 7, 0, 0, false, bytes, 97, place, 1), TAINHOSA_OUTSIDE_RULES);
    EQUAL(tainhosa_make_header(out, 256, firmware, length, 7, 0, 0, false, bytes, 96, place, 0), TAINHOSA_OUTSIDE_RULES);
    EQUAL(tainhosa_make_header(out, 256, firmware, length, 7, 0, 0, false, bytes, 96, place, 2), TAINHOSA_OUTSIDE_RULES);
    EQUAL(place[0], BEFORE);
    EQUAL(place[1], BEFORE);
    EQUAL(tainhosa_header_make(out, 255, firmware, 0, &sheet, place), TAINHOSA_SHORT_HEADER);
    EQUAL(place[0], 0);
    EQUAL(tainhosa_header_make(out, 256, firmware, 0, &sheet, place), TAINHOSA_WRONG_SIZE);
    EQUAL(place[0], 4);
    /* 2^32 bytes, and three more, whose number's low half is a size. Pages that nobody touches take no memory. */
    huge = mmap(NULL, too_long + 3, PROT_READ, MAP_PRIVATE | MAP_ANONYMOUS | MAP_NORESERVE, -1, 0);
    if (huge != MAP_FAILED) {
        for (more = 0; more <= 3; more += 3) {
            place[0] = BEFORE;
            EQUAL(tainhosa_header_make(out, 256, (const uint8_t *)huge, too_long + more, &sheet, place), TAINHOSA_WRONG_SIZE);
            EQUAL(place[0], 4);
        }
        munmap(huge, too_long + 3);
    } else {
        printf("a firmware of 4 GiB was not tried: no room for it\n");
    }
    EVERY(out, 0, sizeof out, BEFORE);
}

/* ---- Images */

enum { TOO_LARGE = 131328 };

static uint8_t large[2 * TOO_LARGE];

/* An image that is refused, with number and place. */
#define REFUSED_IMAGE(sectors, size, partition, length, number, at) \
    do { \
        struct tainhosa_header refused_image; \
        memset(&refused_image, BEFORE, sizeof refused_image); \
        EQUAL(tainhosa_image_check(sectors, size, partition, length, &refused_image), number); \
        expect_blank(&refused_image, at); \
    } while (0)

#define REFUSED_FIRMWARE(image, length, number, at) \
    do { \
        struct tainhosa_header refused_firmware; \
        memset(&refused_firmware, BEFORE, sizeof refused_firmware); \
        EQUAL(tainhosa_firmware_check(image, length, &refused_firmware), number); \
        expect_blank(&refused_firmware, at); \
    } while (0)

static void images(void) {
    uint8_t bytes[TAINHOSA_HEADER_BYTES], digest[32];
    uint64_t numbers[TAINHOSA_HEADER_NUMBERS];
    struct tainhosa_header header;
    size_t length;

    memset(large, 0xFF, sizeof large);
    length = put_image(large, SHORT, 7);
    EQUAL(length, 259);
    EQUAL(tainhosa_image_check(3, 256, large, 768, &header), TAINHOSA_OK);
    expect_values(&header, SHORT, 7, false);
    EQUAL(tainhosa_check_image(TAINHOSA_SECTORS_MAX, 512, large, 512 * 512, numbers, 6, bytes, 128), TAINHOSA_OK);
    EQUAL(numbers[TAINHOSA_HEADER_VERSION], 7);
    stated_digest(digest, SHORT, 7);
    SAME(bytes + TAINHOSA_DIGEST_AT, digest, 32);
    EQUAL(tainhosa_image_check(TAINHOSA_SECTORS_MIN, TAINHOSA_SIZE_MAX, large, 2 * 131072, &header), TAINHOSA_OK);
    EQUAL(tainhosa_image_check(2, TAINHOSA_SIZE_MIN + TAINHOSA_SIZE_UNIT, large, 1024, &header), TAINHOSA_OK);
    EQUAL(tainhosa_image_check(511, TAINHOSA_SIZE_MIN, large, 511 * 256, &header), TAINHOSA_OK);
    REFUSED_IMAGE(1, 256, large, 256, TAINHOSA_OUTSIDE_RULES, 0);
    REFUSED_IMAGE(512, 256, large, 512 * 256, TAINHOSA_OUTSIDE_RULES, 0);
    REFUSED_IMAGE(513, 256, large, 513 * 256, TAINHOSA_OUTSIDE_RULES, 0);
    REFUSED_IMAGE(513, 512, large, 513 * 512, TAINHOSA_OUTSIDE_RULES, 0);
    REFUSED_IMAGE(512, 512, large, 512 * 512 - 1, TAINHOSA_OUTSIDE_RULES, 0);
    REFUSED_IMAGE(512, 512, large, 512 * 512 + 1, TAINHOSA_OUTSIDE_RULES, 0);
    REFUSED_IMAGE(SIZE_MAX, SIZE_MAX, large, 1, TAINHOSA_OUTSIDE_RULES, 0);
    REFUSED_IMAGE(SIZE_MAX / 256 + 3, 256, large, 512, TAINHOSA_OUTSIDE_RULES, 0);
    REFUSED_IMAGE(2, 384, large, 768, TAINHOSA_OUTSIDE_RULES, 0);
    REFUSED_IMAGE(2, TOO_LARGE, large, 2 * TOO_LARGE, TAINHOSA_OUTSIDE_RULES, 0);
    REFUSED_IMAGE(3, 256, large, 767, TAINHOSA_OUTSIDE_RULES, 0);
    REFUSED_IMAGE(3, 256, large, 769, TAINHOSA_OUTSIDE_RULES, 0);
    REFUSED_IMAGE(2, 256, large, 512, TAINHOSA_WRONG_SIZE, 4);

    EQUAL(tainhosa_firmware_check(large, 259, &header), TAINHOSA_OK);
    expect_values(&header, SHORT, 7, false);
    EQUAL(tainhosa_firmware_check(large, 1001, &header), TAINHOSA_OK);
    EQUAL(tainhosa_check_firmware(large, 259, numbers, 6, bytes, 128), TAINHOSA_OK);
    EQUAL(numbers[TAINHOSA_HEADER_SIZE], 3);
    SAME(bytes + TAINHOSA_DIGEST_AT, digest, 32);
    REFUSED_FIRMWARE(large, 258, TAINHOSA_WRONG_SIZE, 4);
    REFUSED_FIRMWARE(large, 256, TAINHOSA_WRONG_SIZE, 4);
    REFUSED_FIRMWARE(large, 255, TAINHOSA_SHORT_HEADER, 0);
    large[258] ^= 0x80;
    REFUSED_IMAGE(3, 256, large, 768, TAINHOSA_WRONG_DIGEST, 256);
    REFUSED_FIRMWARE(large, 259, TAINHOSA_WRONG_DIGEST, 256);
    put_one_more(large, 0x8000);
    REFUSED_IMAGE(3, 256, large, 768, TAINHOSA_TAG_NOT_UNDERSTOOD, 138);
    REFUSED_IMAGE(2, 256, large, 512, TAINHOSA_TAG_NOT_UNDERSTOOD, 138);
    REFUSED_IMAGE(1, 256, large, 256, TAINHOSA_OUTSIDE_RULES, 0);
    REFUSED_FIRMWARE(large, 259, TAINHOSA_TAG_NOT_UNDERSTOOD, 138);
    REFUSED_FIRMWARE(large, 258, TAINHOSA_TAG_NOT_UNDERSTOOD, 138);
    large[258] ^= 0x80;
    REFUSED_IMAGE(3, 256, large, 768, TAINHOSA_TAG_NOT_UNDERSTOOD, 138);
    REFUSED_FIRMWARE(large, 259, TAINHOSA_TAG_NOT_UNDERSTOOD, 138);
    put_one_more(large, 0x7FFE);
    EQUAL(tainhosa_image_check(3, 256, large, 768, &header), TAINHOSA_OK);
    expect_values(&header, SHORT, 7, false);
    EQUAL(tainhosa_firmware_check(large, 259, &header), TAINHOSA_OK);
    large[0] ^= 1;
    REFUSED_IMAGE(3, 256, large, 768, TAINHOSA_WRONG_MAGIC, 0);
    REFUSED_FIRMWARE(large, 259, TAINHOSA_WRONG_MAGIC, 0);
    memset(numbers, BEFORE, sizeof numbers);
    memset(bytes, BEFORE, sizeof bytes);
    EQUAL(tainhosa_check_image(3, 256, large, 768, numbers, 5, bytes, 128), TAINHOSA_OUTSIDE_RULES);
    EQUAL(tainhosa_check_image(3, 256, large, 768, numbers, 6, bytes, 127), TAINHOSA_OUTSIDE_RULES);
    EQUAL(tainhosa_check_firmware(large, 259, numbers, 5, bytes, 128), TAINHOSA_OUTSIDE_RULES);
    EQUAL(tainhosa_check_firmware(large, 259, numbers, 6, bytes, 127), TAINHOSA_OUTSIDE_RULES);
    EVERY((const uint8_t *)numbers, 0, sizeof numbers, BEFORE);
    EVERY(bytes, 0, sizeof bytes, BEFORE);
}

/* Both checks of the image in the first sectors of `large`: good, or refused with 9. */
static void expect_covered(int line, bool good) {
    struct tainhosa_header header;
    uint32_t answer = good ? TAINHOSA_OK : TAINHOSA_WRONG_DIGEST;
    expect(line, "tainhosa_image_check", tainhosa_image_check(3, 256, large, 768, &header), answer);
    expect(line, "place", header.place, good ? 0 : 256);
    expect(line, "tainhosa_firmware_check", tainhosa_firmware_check(large, 259, &header), answer);
    expect(line, "place", header.place, good ? 0 : 256);
}

#define GOOD_IMAGE() expect_covered(__LINE__, true)
#define OTHER_DIGEST() expect_covered(__LINE__, false)

/* The digest covers the header's bytes before the digest tag, and then the firmware (document 02, three). */
static void covered(void) {
    size_t at;
    memset(large, 0xFF, 768);
    put_image(large, SHORT, 7);
    GOOD_IMAGE();
    from_hex(large + 32, fips[SHORT].digest);
    OTHER_DIGEST(); /* of the firmware alone */
    for (at = 12; at < 260; at++) {
        bool version = at < 16, timestamp = at >= 20 && at < 28, digest = at >= 32 && at < 64, firmware = at >= 256 && at < 259;
        bool signature = at >= 68 && at < 132, auth_type = at == 136 || at == 137, behind_end = at >= 140 && at < 256;
        put_image(large, SHORT, 7);
        large[at] ^= 1;
        if (version || timestamp || digest || firmware) {
            OTHER_DIGEST();
        } else if (signature || auth_type || behind_end || at == 259) {
            GOOD_IMAGE();
        }
    }
    put_image(large, SHORT, 7);
    put(large + 4, 4, 2);
    OTHER_DIGEST();

    /* Two bytes of padding and a skipped tag come first, and what it holds looks like a digest tag. The digest tag is at 38. */
    put_image(large, SHORT, 7);
    memmove(large + 18, large + 8, 132);
    memset(large + 8, 0xFF, 2);
    put_tag(large + 10, 0x0042, 4);
    put_tag(large + 14, 0x0003, 32);
    OTHER_DIGEST();
    from_hex(large + 42, "eed060a7dc212bc00f3223aafe1a78d7e41f29e864698fef116891c0f69d214d");
    GOOD_IMAGE();
    large[10] = 0x43;
    OTHER_DIGEST();
    large[10] = 0x42;
    large[17] = 0x01;
    OTHER_DIGEST();
    large[17] = 0x00;
    memmove(large + 9, large + 10, 140);
    large[149] = 0xFF;
    OTHER_DIGEST(); /* one byte of padding less */

    /* The digest tag is the first one: only magic and size stand before it, and the version is not covered. */
    put_image(large, SHORT, 7);
    memmove(large + 44, large + 8, 20);
    put_tag(large + 8, 0x0003, 32);
    from_hex(large + 12, "282c49cc157c369f2e2fece663c53cee9dd22430a8e135fedb70455b4baf21f9");
    GOOD_IMAGE();
    put(large + 48, 4, 8);
    GOOD_IMAGE();
    put(large + 4, 4, 2);
    OTHER_DIGEST();
}

/* ---- Power-up, arm and confirm, on document 01's three sectors of 256: flag byte 766, status 767 */

enum { FIRMWARE_SECTORS = 512, FLAGS = 766, STATUS = 767 };

static uint8_t boot[768], update[768], swap[256], old_boot[768], old_update[768];
static struct tainhosa_flash flash = {3, 256, boot, sizeof boot, update, sizeof update, swap, sizeof swap};

static unsigned flag(unsigned sector) { return update[FLAGS - sector / 2] >> (sector % 2 * 4) & 0xFu; }

/* Two good images, versions as given; BOOT is SUCCESS, UPDATE is NEW. */
static void two_images(uint32_t boot_version, uint32_t update_version) {
    memset(boot, 0xFF, sizeof boot);
    memset(update, 0xFF, sizeof update);
    memset(swap, BEFORE, sizeof swap);
    put_image(boot, SHORT, boot_version);
    put_image(update, LONGER, update_version);
    boot[STATUS] = 0x00;
}

static void remember(void) {
    memcpy(old_boot, boot, sizeof boot);
    memcpy(old_update, update, sizeof update);
}

static void expect_unchanged(void) {
    SAME(boot, old_boot, sizeof boot);
    SAME(update, old_update, sizeof update);
}

/* The update is good and armed. */
static void armed(uint32_t boot_version, uint32_t update_version) {
    uint64_t count = BEFORE;
    two_images(boot_version, update_version);
    update[FLAGS] = 0x00;
    remember();
    EQUAL(tainhosa_flash_arm(&flash, &count), TAINHOSA_OK);
    EQUAL(count, 2);
    SAME(boot, old_boot, sizeof boot);
    SAME(update, old_update, FIRMWARE_SECTORS);
    EVERY(update, FIRMWARE_SECTORS, STATUS, 0xFF);
    EQUAL(update[STATUS], TAINHOSA_STATUS_UPDATING);
}

/* A power-up that answers OK, with its outcome, count and reason. */
static void power_up(int line, uint64_t budget, uint32_t outcome, uint64_t count, uint32_t reason, uint64_t reason_place) {
    struct tainhosa_power_up_answer answer;
    memset(&answer, BEFORE, sizeof answer);
    expect(line, "tainhosa_flash_power_up", tainhosa_flash_power_up(&flash, budget, &answer), TAINHOSA_OK);
    expect(line, "outcome", answer.outcome, outcome);
    expect(line, "count", answer.count, count);
    expect(line, "inner", answer.inner, 0);
    expect(line, "inner_place", answer.inner_place, 0);
    expect(line, "reason", answer.reason, reason);
    expect(line, "reason_place", answer.reason_place, reason_place);
}

#define POWER_UP(budget, outcome, count) power_up(__LINE__, budget, outcome, count, 0, 0)
#define TURNED_DOWN(budget, outcome, count, reason, at) power_up(__LINE__, budget, outcome, count, reason, at)

/* A power-up that is refused before its first operation, with the bad image's own number and place. */
static void no_power_up(int line, uint32_t number, uint32_t inner, uint64_t inner_place) {
    struct tainhosa_power_up_answer answer;
    memset(&answer, BEFORE, sizeof answer);
    remember();
    expect(line, "tainhosa_flash_power_up", tainhosa_flash_power_up(&flash, UINT64_MAX, &answer), number);
    expect(line, "outcome", answer.outcome, TAINHOSA_REFUSED);
    expect(line, "count", answer.count, 0);
    expect(line, "inner", answer.inner, inner);
    expect(line, "inner_place", answer.inner_place, inner_place);
    expect(line, "reason", answer.reason, 0);
    expect(line, "reason_place", answer.reason_place, 0);
    expect_unchanged();
}

#define NO_POWER_UP(number, inner, at) no_power_up(__LINE__, number, inner, at)

/* An arm or a confirm that is refused. */
#define NO_COMMAND(call, number) \
    do { \
        uint64_t refused_count = BEFORE; \
        remember(); \
        EQUAL(call(&flash, &refused_count), number); \
        EQUAL(refused_count, 0); \
        expect_unchanged(); \
    } while (0)

static void an_update(void) {
    static const uint8_t flags[] = {0xF7, 0xF3, 0xF0, 0x70, 0x30, 0x00};
    unsigned i;
    for (i = 0; i < 6; i++) {
        armed(1, 2);
        POWER_UP(3 * (i + 1), TAINHOSA_CUT, 3 * (i + 1));
        EQUAL(update[FLAGS], flags[i]);
        EQUAL(boot[STATUS], TAINHOSA_STATUS_SUCCESS);
        EQUAL(update[STATUS], TAINHOSA_STATUS_UPDATING);
    }
    armed(1, 2);
    EQUAL(flag(0), TAINHOSA_FLAG_UNTOUCHED);
    POWER_UP(3, TAINHOSA_CUT, 3);
    EQUAL(flag(0), TAINHOSA_FLAG_SAVED);
    SAME(swap, old_update, 256);
    POWER_UP(3, TAINHOSA_CUT, 3);
    EQUAL(flag(0), TAINHOSA_FLAG_MOVED);
    SAME(update, old_boot, 256);
    POWER_UP(3, TAINHOSA_CUT, 3);
    EQUAL(flag(0), TAINHOSA_FLAG_EXCHANGED);
    EQUAL(flag(1), TAINHOSA_FLAG_UNTOUCHED);
    SAME(boot, old_update, 256);

    armed(1, 2);
    POWER_UP(20, TAINHOSA_CUT, 20);
    EQUAL(boot[STATUS], TAINHOSA_STATUS_TESTING);
    EQUAL(update[STATUS], TAINHOSA_STATUS_UPDATING);
    armed(1, 2);
    POWER_UP(5, TAINHOSA_CUT, 5);
    POWER_UP(100, TAINHOSA_RUN_ON_TEST, 18);
    armed(1, 2);
    for (i = 0; i < 3; i++) {
        POWER_UP(2, TAINHOSA_CUT, 2);
        EQUAL(update[FLAGS], 0xFF);
    }
    armed(1, 2);
    POWER_UP(21, TAINHOSA_RUN_ON_TEST, 21);
    SAME(boot, old_update, FIRMWARE_SECTORS);
    SAME(update, old_boot, FIRMWARE_SECTORS);
    EVERY(boot, FIRMWARE_SECTORS, STATUS, 0xFF);
    EQUAL(boot[STATUS], TAINHOSA_STATUS_TESTING);
    EVERY(update, FIRMWARE_SECTORS, sizeof update, 0xFF);
}

static void after_an_update(void) {
    uint64_t count = BEFORE;
    armed(1, 2);
    POWER_UP(UINT64_MAX, TAINHOSA_RUN_ON_TEST, 21);
    NO_COMMAND(tainhosa_flash_arm, TAINHOSA_WRONG_TIME);
    remember();
    EQUAL(tainhosa_flash_confirm(&flash, &count), TAINHOSA_OK);
    EQUAL(count, 1);
    EQUAL(boot[STATUS], TAINHOSA_STATUS_SUCCESS);
    SAME(boot, old_boot, STATUS);
    SAME(update, old_update, sizeof update);
    POWER_UP(0, TAINHOSA_RUN, 0);
    NO_COMMAND(tainhosa_flash_confirm, TAINHOSA_WRONG_TIME);

    armed(1, 2);
    POWER_UP(UINT64_MAX, TAINHOSA_RUN_ON_TEST, 21);
    POWER_UP(3, TAINHOSA_CUT, 3);
    EQUAL(update[FLAGS], 0xF7);
    NO_COMMAND(tainhosa_flash_confirm, TAINHOSA_WRONG_TIME);
    update[FLAGS] = 0x7F;
    NO_COMMAND(tainhosa_flash_confirm, TAINHOSA_FLAGS_MALFORMED);
    armed(1, 2);
    POWER_UP(UINT64_MAX, TAINHOSA_RUN_ON_TEST, 21);
    POWER_UP(19, TAINHOSA_RUN_FALLEN_BACK, 19);
    SAME(boot, old_boot, FIRMWARE_SECTORS);
    SAME(update, old_update, FIRMWARE_SECTORS);
    EQUAL(boot[STATUS], TAINHOSA_STATUS_SUCCESS);
    EQUAL(update[STATUS], TAINHOSA_STATUS_NEW);
    EQUAL(update[FLAGS], 0x00);
}

static void turning_down(void) {
    struct tainhosa_power_up_answer answer;
    armed(7, 7);
    TURNED_DOWN(0, TAINHOSA_CUT, 0, TAINHOSA_NOT_NEWER, 0);
    TURNED_DOWN(UINT64_MAX, TAINHOSA_RUN, 1, TAINHOSA_NOT_NEWER, 0);
    SAME(boot, old_boot, sizeof boot);
    SAME(update, old_update, FIRMWARE_SECTORS);
    EVERY(update, FIRMWARE_SECTORS, sizeof update, 0xFF);
    armed(7, 8);
    POWER_UP(UINT64_MAX, TAINHOSA_RUN_ON_TEST, 21);
    armed(1, 2);
    update[256] ^= 1;
    TURNED_DOWN(UINT64_MAX, TAINHOSA_RUN, 1, TAINHOSA_WRONG_DIGEST, 256);
    armed(7, 7);
    put(update + 12, 4, 8); /* not newer, and made to look so */
    TURNED_DOWN(UINT64_MAX, TAINHOSA_RUN, 1, TAINHOSA_WRONG_DIGEST, 256);
    armed(1, 2);
    put(update + 16, 2, 0x0001);
    TURNED_DOWN(UINT64_MAX, TAINHOSA_RUN, 1, TAINHOSA_TAG_WRONG_LENGTH, 16);
    armed(1, 2);
    put_one_more(update, 0x8000);
    TURNED_DOWN(0, TAINHOSA_CUT, 0, TAINHOSA_TAG_NOT_UNDERSTOOD, 138);
    TURNED_DOWN(UINT64_MAX, TAINHOSA_RUN, 1, TAINHOSA_TAG_NOT_UNDERSTOOD, 138);
    armed(1, 2);
    put_one_more(update, 0x7FFE);
    POWER_UP(UINT64_MAX, TAINHOSA_RUN_ON_TEST, 21);

    /* Both images are bad: 12 comes after the operation that turned the update down. */
    armed(1, 2);
    update[3] = 0;
    boot[256] ^= 1;
    EQUAL(tainhosa_flash_power_up(&flash, UINT64_MAX, &answer), TAINHOSA_BAD_BOOT);
    EQUAL(answer.outcome, TAINHOSA_REFUSED);
    EQUAL(answer.count, 1);
    EQUAL(answer.inner, TAINHOSA_WRONG_DIGEST);
    EQUAL(answer.inner_place, 256);
    EQUAL(answer.reason, TAINHOSA_WRONG_MAGIC);
    EQUAL(answer.reason_place, 0);
    EQUAL(update[STATUS], TAINHOSA_STATUS_NEW);
    armed(1, 2);
    put(update + 16, 2, 0x8000);
    put_one_more(boot, 0xFFFE);
    EQUAL(tainhosa_flash_power_up(&flash, UINT64_MAX, &answer), TAINHOSA_BAD_BOOT);
    EQUAL(answer.outcome, TAINHOSA_REFUSED);
    EQUAL(answer.count, 1);
    EQUAL(answer.inner, TAINHOSA_TAG_NOT_UNDERSTOOD);
    EQUAL(answer.inner_place, 138);
    EQUAL(answer.reason, TAINHOSA_TAG_NOT_UNDERSTOOD);
    EQUAL(answer.reason_place, 16);
}

static void refusals(void) {
    struct tainhosa_flash good = flash;
    two_images(1, 2);
    POWER_UP(0, TAINHOSA_RUN, 0);
    boot[STATUS] = 0x70;
    NO_POWER_UP(TAINHOSA_STATUS_NOT_ALLOWED, 0, 0);
    NO_COMMAND(tainhosa_flash_arm, TAINHOSA_STATUS_NOT_ALLOWED);
    NO_COMMAND(tainhosa_flash_confirm, TAINHOSA_STATUS_NOT_ALLOWED);
    two_images(1, 2);
    update[STATUS] = 0x10;
    NO_POWER_UP(TAINHOSA_STATUS_NOT_ALLOWED, 0, 0);
    armed(1, 2);
    NO_COMMAND(tainhosa_flash_arm, TAINHOSA_WRONG_TIME);
    update[FLAGS] = 0x7F;
    NO_POWER_UP(TAINHOSA_FLAGS_MALFORMED, 0, 0);
    update[FLAGS] = 0xF7;
    POWER_UP(0, TAINHOSA_CUT, 0);
    two_images(1, 2);
    boot[256] ^= 1;
    NO_POWER_UP(TAINHOSA_BAD_BOOT, TAINHOSA_WRONG_DIGEST, 256);
    two_images(1, 2);
    boot[STATUS] = TAINHOSA_STATUS_TESTING;
    put(update + 16, 2, 0x0042);
    NO_POWER_UP(TAINHOSA_NO_FALLBACK, TAINHOSA_TAG_MISSING, 0x0002);
    put(update + 16, 2, 0x8000);
    NO_POWER_UP(TAINHOSA_NO_FALLBACK, TAINHOSA_TAG_NOT_UNDERSTOOD, 16);
    two_images(1, 2);
    put_one_more(boot, 0x8000);
    NO_POWER_UP(TAINHOSA_BAD_BOOT, TAINHOSA_TAG_NOT_UNDERSTOOD, 138);
    put_one_more(boot, 0x7FFE);
    POWER_UP(0, TAINHOSA_RUN, 0);

    two_images(1, 2);
    flash.sectors = 513;
    NO_POWER_UP(TAINHOSA_OUTSIDE_RULES, 0, 0);
    flash = good;
    flash.size = 384;
    NO_POWER_UP(TAINHOSA_OUTSIDE_RULES, 0, 0);
    flash = good;
    flash.boot_length = 767;
    NO_POWER_UP(TAINHOSA_OUTSIDE_RULES, 0, 0);
    NO_COMMAND(tainhosa_flash_arm, TAINHOSA_OUTSIDE_RULES);
    flash = good;
    flash.update_length = 767;
    NO_COMMAND(tainhosa_flash_confirm, TAINHOSA_OUTSIDE_RULES);
    flash = good;
    flash.swap_length = 255;
    NO_POWER_UP(TAINHOSA_OUTSIDE_RULES, 0, 0);
    flash = good;
}

/* ---- Mending, on the same three sectors */

/* The flags are spoiled and mended: the mark, the flag byte then, and the operations that are left from there. */
static void mend(int line, uint8_t spoiled, size_t sector, unsigned sector_flag, uint8_t mended_byte, uint64_t left) {
    struct tainhosa_mended mended;
    uint8_t old_swap[256], older[259], newer[368];
    remember();
    EQUAL(put_image(older, SHORT, 1), sizeof older);
    EQUAL(put_image(newer, LONGER, 2), sizeof newer);
    memcpy(old_swap, swap, sizeof swap);
    memset(&mended, BEFORE, sizeof mended);
    update[FLAGS] = spoiled;
    old_update[FLAGS] = mended_byte;
    expect(line, "tainhosa_flash_mend", tainhosa_flash_mend(&flash, &mended), TAINHOSA_OK);
    expect(line, "sector", mended.sector, sector);
    expect(line, "flag", mended.flag, sector_flag);
    expect(line, "changed", mended.changed, spoiled == mended_byte ? 0 : 1);
    expect(line, "flag byte", update[FLAGS], mended_byte);
    expect_unchanged();
    SAME(swap, old_swap, sizeof swap);
    power_up(line, UINT64_MAX, TAINHOSA_RUN_ON_TEST, left, 0, 0);
    SAME(boot, newer, sizeof newer);
    SAME(update, older, sizeof older);
    EQUAL(boot[STATUS], TAINHOSA_STATUS_TESTING);
    EVERY(update, FIRMWARE_SECTORS, sizeof update, 0xFF);
}

/* A mend that is refused. */
static void no_mend(int line, uint32_t number) {
    struct tainhosa_mended mended;
    memset(&mended, BEFORE, sizeof mended);
    remember();
    expect(line, "tainhosa_flash_mend", tainhosa_flash_mend(&flash, &mended), number);
    expect(line, "sector", mended.sector, 0);
    expect(line, "flag", mended.flag, 0);
    expect(line, "changed", mended.changed, 0);
    expect_unchanged();
}

#define MEND(spoiled, sector, sector_flag, mended_byte, left) mend(__LINE__, spoiled, sector, sector_flag, mended_byte, left)
#define NO_MEND(number) no_mend(__LINE__, number)

/* The update is armed, and so many operations are done. */
static void armed_and_cut(uint64_t operations) {
    armed(1, 2);
    POWER_UP(operations, TAINHOSA_CUT, operations);
}

/*
 * The whole update takes 21 operations, three of them for each of the six moves of the flags. Two of the three do not show which of two
 * marks is the true one, and then the first is taken. Both firmwares begin with "abc", and that is all of the older one: it is good with
 * either sector 1.
 */
static void mending(void) {
    struct tainhosa_flash good = flash;
    struct tainhosa_mended mended;
    unsigned spoiled;

    armed_and_cut(0);
    MEND(0x5A, 0, TAINHOSA_FLAG_UNTOUCHED, 0xFF, 21);
    armed_and_cut(0);
    MEND(0xFF, 0, TAINHOSA_FLAG_UNTOUCHED, 0xFF, 21);
    armed_and_cut(3);
    MEND(0xF7, 0, TAINHOSA_FLAG_UNTOUCHED, 0xFF, 21);
    armed_and_cut(4);
    MEND(0x00, 0, TAINHOSA_FLAG_SAVED, 0xF7, 18);
    armed_and_cut(5);
    MEND(0x11, 0, TAINHOSA_FLAG_SAVED, 0xF7, 18);
    armed_and_cut(6);
    MEND(0xF3, 0, TAINHOSA_FLAG_SAVED, 0xF7, 18);
    armed_and_cut(7);
    MEND(0x0F, 0, TAINHOSA_FLAG_MOVED, 0xF3, 15);
    armed_and_cut(9);
    MEND(0xF0, 0, TAINHOSA_FLAG_MOVED, 0xF3, 15);
    armed_and_cut(10);
    MEND(0xFF, 1, TAINHOSA_FLAG_UNTOUCHED, 0xF0, 12);
    armed_and_cut(12);
    MEND(0x70, 1, TAINHOSA_FLAG_UNTOUCHED, 0xF0, 12);
    armed_and_cut(13);
    MEND(0x07, 1, TAINHOSA_FLAG_SAVED, 0x70, 9);
    armed_and_cut(16);
    MEND(0xFF, 1, TAINHOSA_FLAG_MOVED, 0x30, 6);
    armed_and_cut(18);
    MEND(0x00, 1, TAINHOSA_FLAG_SAVED, 0x70, 9);
    armed_and_cut(18);
    memset(swap, 0xFF, sizeof swap);
    MEND(0x77, 2, TAINHOSA_FLAG_EXCHANGED, 0x00, 3);
    armed_and_cut(13);
    boot[STATUS] = TAINHOSA_STATUS_NEW;
    MEND(0xAA, 1, TAINHOSA_FLAG_SAVED, 0x70, 8);
    for (spoiled = 0; spoiled < 256; spoiled++) {
        armed_and_cut(7);
        MEND((uint8_t)spoiled, 0, TAINHOSA_FLAG_MOVED, 0xF3, 15);
    }

    /* Another signature of UPDATE's image, whose header is in BOOT, has no say; another version, or one of BOOT's image, has. */
    armed_and_cut(13);
    boot[68] ^= 1;
    EQUAL(tainhosa_flash_mend(&flash, &mended), TAINHOSA_OK);
    EQUAL(mended.sector, 1);
    EQUAL(mended.flag, TAINHOSA_FLAG_SAVED);
    armed_and_cut(13);
    put(boot + 12, 4, 3);
    NO_MEND(TAINHOSA_NO_MARK_FITS);
    armed_and_cut(13);
    put(update + 12, 4, 0);
    NO_MEND(TAINHOSA_NO_MARK_FITS);
    armed_and_cut(3);
    swap[20] ^= 1;
    update[20] ^= 1;
    NO_MEND(TAINHOSA_NO_MARK_FITS);

    /* A tag that must be understood, in UPDATE's image or in BOOT's, has a say; a lower type in both has none. */
    armed_and_cut(13);
    put_one_more(boot, 0x8000);
    NO_MEND(TAINHOSA_NO_MARK_FITS);
    put_one_more(boot, 0x7FFE);
    put_one_more(update, 0xFFFE);
    NO_MEND(TAINHOSA_NO_MARK_FITS);
    put_one_more(update, 0x0042);
    EQUAL(tainhosa_flash_mend(&flash, &mended), TAINHOSA_OK);
    EQUAL(mended.sector, 1);
    EQUAL(mended.flag, TAINHOSA_FLAG_SAVED);

    /* No mark fits: UPDATE's firmware is damaged, BOOT's is, the versions are equal. */
    armed_and_cut(13);
    swap[0] ^= 1;
    NO_MEND(TAINHOSA_NO_MARK_FITS);
    armed_and_cut(13);
    boot[256] ^= 1;
    NO_MEND(TAINHOSA_NO_MARK_FITS);
    armed(3, 3);
    NO_MEND(TAINHOSA_NO_MARK_FITS);

    /* Each other pair of statuses, and those that are not allowed. */
    armed_and_cut(20);
    NO_MEND(TAINHOSA_WRONG_TIME);
    armed(1, 2);
    POWER_UP(21, TAINHOSA_RUN_ON_TEST, 21);
    NO_MEND(TAINHOSA_WRONG_TIME);
    two_images(1, 2);
    NO_MEND(TAINHOSA_WRONG_TIME);
    boot[STATUS] = TAINHOSA_STATUS_NEW;
    NO_MEND(TAINHOSA_WRONG_TIME);
    armed(1, 2);
    boot[STATUS] = 0x70;
    NO_MEND(TAINHOSA_STATUS_NOT_ALLOWED);
    armed(1, 2);
    update[STATUS] = 0x00;
    NO_MEND(TAINHOSA_STATUS_NOT_ALLOWED);

    armed(1, 2);
    flash.sectors = 513;
    NO_MEND(TAINHOSA_OUTSIDE_RULES);
    flash = good;
    flash.size = 384;
    NO_MEND(TAINHOSA_OUTSIDE_RULES);
    flash = good;
    flash.boot_length = 767;
    NO_MEND(TAINHOSA_OUTSIDE_RULES);
    flash = good;
    flash.update_length = 767;
    NO_MEND(TAINHOSA_OUTSIDE_RULES);
    flash = good;
    flash.swap_length = 255;
    NO_MEND(TAINHOSA_OUTSIDE_RULES);
    flash = good;
}

/* The half byte that one flag leaves unused stays: two sectors of 512 bytes. */
static void unused_half(void) {
    static uint8_t one_boot[1024], one_update[1024], one_swap[512];
    uint64_t numbers[TAINHOSA_MEND_NUMBERS] = {BEFORE, BEFORE, BEFORE};
    memset(one_boot, 0xFF, sizeof one_boot);
    memset(one_update, 0xFF, sizeof one_update);
    memset(one_swap, 0xFF, sizeof one_swap);
    put_image(one_boot, SHORT, 1);
    put_image(one_update, LONGER, 2);
    one_boot[1023] = TAINHOSA_STATUS_SUCCESS;
    one_update[1023] = TAINHOSA_STATUS_UPDATING;
    one_update[1022] = 0x52;
    EQUAL(tainhosa_mend(2, 512, one_boot, 1024, one_update, 1024, one_swap, 512, numbers, 3), TAINHOSA_OK);
    EQUAL(numbers[TAINHOSA_MEND_SECTOR], 0);
    EQUAL(numbers[TAINHOSA_MEND_FLAG], TAINHOSA_FLAG_UNTOUCHED);
    EQUAL(numbers[TAINHOSA_MEND_CHANGED], 1);
    EQUAL(one_update[1022], 0x5F);
    EVERY(one_update, 512, 1022, 0xFF);
}

/* ---- Erase counts, on the same three sectors: BOOT's three, UPDATE's three and SWAP */

/* As high as a count may be there. */
#define MOST 4294967293u

static uint32_t counts[TAINHOSA_ROW_LENGTH(3)], old_counts[TAINHOSA_ROW_LENGTH(3)];
static uint64_t total;

static void put_counts(uint32_t b0, uint32_t b1, uint32_t b2, uint32_t u0, uint32_t u1, uint32_t u2, uint32_t s) {
    const uint32_t all[TAINHOSA_ROW_LENGTH(3)] = {b0, b1, b2, u0, u1, u2, s};
    size_t i;
    memcpy(counts, all, sizeof counts);
    total = 0;
    for (i = 0; i < TAINHOSA_ROW_LENGTH(3); i++) {
        total += counts[i];
    }
}

/* The counts that are left, and that the total is their sum. */
static void expect_counts(int line, uint32_t b0, uint32_t b1, uint32_t b2, uint32_t u0, uint32_t u1, uint32_t u2, uint32_t s) {
    expect(line, "BOOT 0", counts[TAINHOSA_ROW_BOOT(0)], b0);
    expect(line, "BOOT 1", counts[TAINHOSA_ROW_BOOT(1)], b1);
    expect(line, "BOOT's trailer", counts[TAINHOSA_ROW_BOOT(2)], b2);
    expect(line, "UPDATE 0", counts[TAINHOSA_ROW_UPDATE(3, 0)], u0);
    expect(line, "UPDATE 1", counts[TAINHOSA_ROW_UPDATE(3, 1)], u1);
    expect(line, "UPDATE's trailer", counts[TAINHOSA_ROW_UPDATE(3, 2)], u2);
    expect(line, "SWAP", counts[TAINHOSA_ROW_SWAP(3)], s);
    expect(line, "total", total, (uint64_t)b0 + b1 + b2 + u0 + u1 + u2 + s);
}

#define COUNTS(b0, b1, b2, u0, u1, u2, s) expect_counts(__LINE__, b0, b1, b2, u0, u1, u2, s)

/* A counted power-up: its answer, its outcome and the operations. */
static void count_power_up(int line, uint64_t budget, uint32_t number, uint32_t outcome, uint64_t count) {
    struct tainhosa_power_up_answer answer;
    memset(&answer, BEFORE, sizeof answer);
    expect(line, "tainhosa_flash_power_up_counted", tainhosa_flash_power_up_counted(&flash, budget, counts, 7, &total, &answer), number);
    expect(line, "outcome", answer.outcome, outcome);
    expect(line, "count", answer.count, count);
}

#define COUNTED(budget, outcome, count) count_power_up(__LINE__, budget, TAINHOSA_OK, outcome, count)

/* Both counted calls are refused, and nothing changes: neither a byte, nor a count, nor the total. */
static void none_counted(int line, size_t row_length, uint32_t power_up_number, uint32_t arm_number, uint32_t inner) {
    struct tainhosa_power_up_answer answer;
    uint64_t count = BEFORE, before = total;
    uint32_t number;
    memset(&answer, BEFORE, sizeof answer);
    remember();
    memcpy(old_counts, counts, sizeof counts);
    number = tainhosa_flash_power_up_counted(&flash, UINT64_MAX, counts, row_length, &total, &answer);
    expect(line, "tainhosa_flash_power_up_counted", number, power_up_number);
    expect(line, "outcome", answer.outcome, TAINHOSA_REFUSED);
    expect(line, "count", answer.count, 0);
    expect(line, "inner", answer.inner, inner);
    expect(line, "reason", answer.reason, 0);
    expect(line, "total", total, before);
    expect(line, "tainhosa_flash_arm_counted", tainhosa_flash_arm_counted(&flash, counts, row_length, &total, &count), arm_number);
    expect(line, "count", count, 0);
    expect(line, "total", total, before);
    SAME(counts, old_counts, sizeof counts);
    expect_unchanged();
}

#define NONE_COUNTED(number) none_counted(__LINE__, 7, number, number, 0)

static void counting(void) {
    uint64_t count = BEFORE;
    unsigned place;
    EQUAL(TAINHOSA_ROW_LENGTH(3), 7);
    EQUAL(TAINHOSA_ROW_LENGTH(TAINHOSA_SECTORS_MAX), TAINHOSA_ROW_LENGTH_MAX);

    /* Arming erases UPDATE's trailer sector; an update each sector once, SWAP for each firmware sector; a fallback no trailer sector. */
    two_images(1, 2);
    put_counts(0, 0, 0, 0, 0, 0, 0);
    EQUAL(tainhosa_flash_arm_counted(&flash, counts, 7, &total, &count), TAINHOSA_OK);
    EQUAL(count, 2);
    COUNTS(0, 0, 0, 0, 0, 1, 0);
    COUNTED(UINT64_MAX, TAINHOSA_RUN_ON_TEST, 21);
    COUNTS(1, 1, 1, 1, 1, 2, 2);
    COUNTED(UINT64_MAX, TAINHOSA_RUN_FALLEN_BACK, 19);
    COUNTS(2, 2, 1, 2, 2, 2, 4);
    COUNTED(UINT64_MAX, TAINHOSA_RUN, 0);
    COUNTS(2, 2, 1, 2, 2, 2, 4);

    /* Each operation of an update: the erases are the operations 1, 4, 7, 10, 13, 16, 19 and 21. */
    armed(1, 2);
    put_counts(10, 20, 30, 40, 50, 60, 70);
    COUNTED(0, TAINHOSA_CUT, 0);
    COUNTS(10, 20, 30, 40, 50, 60, 70);
    COUNTED(1, TAINHOSA_CUT, 1);
    COUNTS(10, 20, 30, 40, 50, 60, 71);
    COUNTED(3, TAINHOSA_CUT, 3);
    COUNTS(10, 20, 30, 40, 50, 60, 72);
    COUNTED(1, TAINHOSA_CUT, 1);
    COUNTS(10, 20, 30, 41, 50, 60, 72);
    COUNTED(3, TAINHOSA_CUT, 3);
    COUNTS(10, 20, 30, 42, 50, 60, 72);
    COUNTED(4, TAINHOSA_CUT, 4);
    COUNTS(11, 20, 30, 42, 50, 60, 73);
    COUNTED(10, TAINHOSA_CUT, 10);
    COUNTS(11, 21, 31, 42, 51, 60, 74);
    COUNTED(UINT64_MAX, TAINHOSA_RUN_ON_TEST, 2);
    COUNTS(11, 21, 31, 42, 51, 61, 74);

    /* Turned down: UPDATE's trailer sector is erased, also where BOOT is bad, which comes after it. */
    armed(7, 7);
    put_counts(1, 2, 3, 4, 5, 6, 7);
    COUNTED(0, TAINHOSA_CUT, 0);
    COUNTS(1, 2, 3, 4, 5, 6, 7);
    COUNTED(UINT64_MAX, TAINHOSA_RUN, 1);
    COUNTS(1, 2, 3, 4, 5, 7, 7);
    armed(1, 2);
    update[3] = 0;
    boot[256] ^= 1;
    count_power_up(__LINE__, UINT64_MAX, TAINHOSA_BAD_BOOT, TAINHOSA_REFUSED, 1);
    COUNTS(1, 2, 3, 4, 5, 8, 7);

    /* A count as high as may be, which two erases bring to the end of 32 bits; a total that needs more than these. */
    armed(1, 2);
    put_counts(5, 0, MOST, 0, 0, MOST, MOST);
    COUNTED(UINT64_MAX, TAINHOSA_RUN_ON_TEST, 21);
    COUNTS(6, 1, MOST + 1, 1, 1, MOST + 1, UINT32_MAX);
    NONE_COUNTED(TAINHOSA_COUNT_TOO_HIGH);

    /* One above, at each place; then with a wrong total too, and with a status byte that may not stand there, which come in this order. */
    two_images(1, 2);
    for (place = 0; place < 7; place++) {
        put_counts(0, 0, 0, 0, 0, 0, 0);
        counts[place] = MOST;
        total = MOST;
        COUNTED(UINT64_MAX, TAINHOSA_RUN, 0);
        EQUAL(total, MOST);
        counts[place] = MOST + 1;
        NONE_COUNTED(TAINHOSA_WRONG_TOTAL);
        total = (uint64_t)MOST + 1;
        NONE_COUNTED(TAINHOSA_COUNT_TOO_HIGH);
        boot[STATUS] = 0x70;
        NONE_COUNTED(TAINHOSA_COUNT_TOO_HIGH);
        boot[STATUS] = TAINHOSA_STATUS_SUCCESS;
    }

    /* Totals that are not the sum: one more, one less, its low 32 bits. */
    armed(1, 2);
    put_counts(MOST, MOST, 0, 1, 2, 3, 4);
    total++;
    NONE_COUNTED(TAINHOSA_WRONG_TOTAL);
    total -= 2;
    NONE_COUNTED(TAINHOSA_WRONG_TOTAL);
    total = (total + 1) & UINT32_MAX;
    NONE_COUNTED(TAINHOSA_WRONG_TOTAL);

    /* What the calls that count nothing refuse comes behind that, and the total is the sum. */
    put_counts(1, 2, 3, 4, 5, 6, 7);
    none_counted(__LINE__, 6, TAINHOSA_OUTSIDE_RULES, TAINHOSA_OUTSIDE_RULES, 0);
    none_counted(__LINE__, 0, TAINHOSA_OUTSIDE_RULES, TAINHOSA_OUTSIDE_RULES, 0);
    total = 6; /* wrong too */
    none_counted(__LINE__, 6, TAINHOSA_OUTSIDE_RULES, TAINHOSA_OUTSIDE_RULES, 0);
    put_counts(1, 2, 3, 4, 5, 6, 7);
    boot[256] ^= 1;
    none_counted(__LINE__, 7, TAINHOSA_BAD_BOOT, TAINHOSA_WRONG_TIME, TAINHOSA_WRONG_DIGEST);
    armed(1, 2);
    update[FLAGS] = 0x7F;
    none_counted(__LINE__, 7, TAINHOSA_FLAGS_MALFORMED, TAINHOSA_WRONG_TIME, 0);
    two_images(1, 2);
    boot[STATUS] = TAINHOSA_STATUS_TESTING;
    update[256] ^= 1;
    none_counted(__LINE__, 7, TAINHOSA_NO_FALLBACK, TAINHOSA_WRONG_TIME, TAINHOSA_WRONG_DIGEST);
    boot[STATUS] = 0x70;
    NONE_COUNTED(TAINHOSA_STATUS_NOT_ALLOWED);
    COUNTS(1, 2, 3, 4, 5, 6, 7);
    flash.swap_length = 255;
    NONE_COUNTED(TAINHOSA_OUTSIDE_RULES);
    flash.swap_length = 256;
    flash.sectors = 2;
    NONE_COUNTED(TAINHOSA_OUTSIDE_RULES);
    flash.sectors = 3;
}

/* The counted calls on rows. A row of counts that is too long is one more than there are sectors for. */
static void counted_rows(void) {
    uint64_t answer[TAINHOSA_COUNTED_NUMBERS + 1], command[TAINHOSA_COUNTED_COMMAND_NUMBERS + 1];
    uint32_t longer[TAINHOSA_ROW_LENGTH(3) + 1] = {1, 1, 1, 1, 1, 1, 1, 0};
    EQUAL(TAINHOSA_COUNTED_NUMBERS, 7);
    EQUAL(TAINHOSA_COUNTED_COMMAND_NUMBERS, 2);
    two_images(9, 10);
    remember();
    memcpy(old_counts, longer, sizeof old_counts);
    memset(answer, BEFORE, sizeof answer);
    memset(command, BEFORE, sizeof command);
    EQUAL(tainhosa_power_up_counted(3, 256, boot, 768, update, 768, swap, 256, 9, longer, 7, 7, answer, 6), TAINHOSA_OUTSIDE_RULES);
    EQUAL(tainhosa_power_up_counted(3, 256, boot, 768, update, 768, swap, 256, 9, longer, 7, 7, answer, 8), TAINHOSA_OUTSIDE_RULES);
    EQUAL(tainhosa_arm_counted(3, 256, boot, 768, update, 768, swap, 256, longer, 7, 7, command, 1), TAINHOSA_OUTSIDE_RULES);
    EQUAL(tainhosa_arm_counted(3, 256, boot, 768, update, 768, swap, 256, longer, 7, 7, command, 3), TAINHOSA_OUTSIDE_RULES);
    EVERY((const uint8_t *)answer, 0, sizeof answer, BEFORE);
    EVERY((const uint8_t *)command, 0, sizeof command, BEFORE);
    EQUAL(tainhosa_power_up_counted(3, 256, boot, 768, update, 768, swap, 256, 9, longer, 8, 7, answer, 7), TAINHOSA_OUTSIDE_RULES);
    EVERY((const uint8_t *)answer, 0, 6 * sizeof answer[0], 0);
    EQUAL(answer[TAINHOSA_COUNTED_TOTAL], 7);
    EQUAL(tainhosa_arm_counted(3, 256, boot, 768, update, 768, swap, 256, longer, 8, 7, command, 2), TAINHOSA_OUTSIDE_RULES);
    EQUAL(command[TAINHOSA_COMMAND_COUNT], 0);
    EQUAL(command[TAINHOSA_COUNTED_COMMAND_TOTAL], 7);
    SAME(longer, old_counts, sizeof old_counts);
    expect_unchanged();

    EQUAL(tainhosa_arm_counted(3, 256, boot, 768, update, 768, swap, 256, longer, 7, 7, command, 2), TAINHOSA_OK);
    EQUAL(command[TAINHOSA_COMMAND_COUNT], 2);
    EQUAL(command[TAINHOSA_COUNTED_COMMAND_TOTAL], 8);
    EQUAL(longer[TAINHOSA_ROW_UPDATE(3, 2)], 2);
    EQUAL(tainhosa_power_up_counted(3, 256, boot, 768, update, 768, swap, 256, 4, longer, 7, 8, answer, 7), TAINHOSA_OK);
    EQUAL(answer[TAINHOSA_POWER_UP_OUTCOME], TAINHOSA_CUT);
    EQUAL(answer[TAINHOSA_POWER_UP_COUNT], 4);
    EQUAL(answer[TAINHOSA_COUNTED_TOTAL], 10);
    EQUAL(longer[TAINHOSA_ROW_SWAP(3)], 2);
    EQUAL(longer[TAINHOSA_ROW_UPDATE(3, 0)], 2);
    EQUAL(longer[7], 0);
}

/* The calls on rows, and rows of another length. */
static void rows(void) {
    uint64_t answer[TAINHOSA_POWER_UP_NUMBERS + 1], count[TAINHOSA_COMMAND_NUMBERS + 1], mended[TAINHOSA_MEND_NUMBERS + 1];
    EQUAL(TAINHOSA_POWER_UP_NUMBERS, 6);
    EQUAL(TAINHOSA_COMMAND_NUMBERS, 1);
    EQUAL(TAINHOSA_MEND_NUMBERS, 3);
    armed(9, 10);
    update[FLAGS] = 0x00;
    remember();
    memset(mended, BEFORE, sizeof mended);
    EQUAL(tainhosa_mend(3, 256, boot, 768, update, 768, swap, 256, mended, 2), TAINHOSA_OUTSIDE_RULES);
    EQUAL(tainhosa_mend(3, 256, boot, 768, update, 768, swap, 256, mended, 4), TAINHOSA_OUTSIDE_RULES);
    EVERY((const uint8_t *)mended, 0, sizeof mended, BEFORE);
    expect_unchanged();
    EQUAL(tainhosa_mend(3, 256, boot, 768, update, 768, swap, 255, mended, 3), TAINHOSA_OUTSIDE_RULES);
    EVERY((const uint8_t *)mended, 0, 3 * sizeof mended[0], 0);
    two_images(9, 9);
    remember();
    memset(answer, BEFORE, sizeof answer);
    memset(count, BEFORE, sizeof count);
    EQUAL(tainhosa_arm(3, 256, boot, 768, update, 768, swap, 256, count, 0), TAINHOSA_OUTSIDE_RULES);
    EQUAL(tainhosa_arm(3, 256, boot, 768, update, 768, swap, 256, count, 2), TAINHOSA_OUTSIDE_RULES);
    EQUAL(tainhosa_confirm(3, 256, boot, 768, update, 768, swap, 256, count, 2), TAINHOSA_OUTSIDE_RULES);
    EQUAL(tainhosa_power_up(3, 256, boot, 768, update, 768, swap, 256, UINT64_MAX, answer, 5), TAINHOSA_OUTSIDE_RULES);
    EQUAL(tainhosa_power_up(3, 256, boot, 768, update, 768, swap, 256, UINT64_MAX, answer, 7), TAINHOSA_OUTSIDE_RULES);
    EVERY((const uint8_t *)answer, 0, sizeof answer, BEFORE);
    EVERY((const uint8_t *)count, 0, sizeof count, BEFORE);
    expect_unchanged();

    EQUAL(tainhosa_arm(3, 256, boot, 768, update, 768, swap, 256, count, 1), TAINHOSA_OK);
    EQUAL(count[TAINHOSA_COMMAND_COUNT], 2);
    EQUAL(tainhosa_power_up(3, 256, boot, 768, update, 768, swap, 256, UINT64_MAX, answer, 6), TAINHOSA_OK);
    EQUAL(answer[TAINHOSA_POWER_UP_OUTCOME], TAINHOSA_RUN);
    EQUAL(answer[TAINHOSA_POWER_UP_COUNT], 1);
    EQUAL(answer[TAINHOSA_POWER_UP_INNER], 0);
    EQUAL(answer[TAINHOSA_POWER_UP_INNER_PLACE], 0);
    EQUAL(answer[TAINHOSA_POWER_UP_REASON], TAINHOSA_NOT_NEWER);
    EQUAL(answer[TAINHOSA_POWER_UP_REASON_PLACE], 0);
    EQUAL(tainhosa_confirm(3, 256, boot, 768, update, 768, swap, 256, count, 1), TAINHOSA_WRONG_TIME);
    EQUAL(count[TAINHOSA_COMMAND_COUNT], 0);
    boot[STATUS] = TAINHOSA_STATUS_TESTING;
    EQUAL(tainhosa_confirm(3, 256, boot, 768, update, 768, swap, 256, count, 1), TAINHOSA_OK);
    EQUAL(count[TAINHOSA_COMMAND_COUNT], 1);
    boot[256] ^= 1;
    EQUAL(tainhosa_power_up(3, 256, boot, 768, update, 768, swap, 256, UINT64_MAX, answer, 6), TAINHOSA_BAD_BOOT);
    EQUAL(answer[TAINHOSA_POWER_UP_OUTCOME], TAINHOSA_REFUSED);
    EQUAL(answer[TAINHOSA_POWER_UP_INNER], TAINHOSA_WRONG_DIGEST);
    EQUAL(answer[TAINHOSA_POWER_UP_INNER_PLACE], 256);
}

int main(void) {
    constants();
    digests();
    writing();
    reading();
    critical_types();
    walking();
    sealed_writing();
    sealed_reading();
    two_sealed();
    sheets();
    making();
    images();
    covered();
    an_update();
    after_an_update();
    turning_down();
    refusals();
    mending();
    unused_half();
    counting();
    counted_rows();
    rows();
    printf("%d expectations, %d wrong\n", tried, wrong);
    return wrong == 0 ? 0 : 1;
}
