/*
 * The digest of 1 MiB: tainhosa_sha256 beside plain C and OpenSSL. Fails if two digests differ.
 * With an argument it prints one row, under that name: beside OpenSSL, whose code the environment has chosen.
 */
#include <stdlib.h>
#include <string.h>

#include "common.h"
#include "plain.h"
#include "tainhosa.h"
#ifdef WITH_OPENSSL
#include <openssl/evp.h>
#endif

enum { LENGTH = 1 << 20, SHORT = 300 };

static uint8_t *message;
static size_t length;
static uint8_t ours[32], plain[32], openssl[32];

static void run_ours(void)
{
    if (tainhosa_sha256(message, length, ours, 32) != TAINHOSA_OK) {
        fail("tainhosa_sha256 refused");
    }
}

static void run_plain(void)
{
    plain_sha256(message, length, plain);
}

static void run_openssl(void)
{
#ifdef WITH_OPENSSL
    if (EVP_Digest(message, length, openssl, NULL, EVP_sha256(), NULL) != 1) {
        fail("OpenSSL refused");
    }
#else
    memcpy(openssl, plain, 32);
#endif
}

static void compare(void)
{
    run_ours();
    run_plain();
    run_openssl();
    if (memcmp(ours, plain, 32) != 0 || memcmp(ours, openssl, 32) != 0) {
        fail("two digests differ");
    }
}

int main(int argc, char **argv)
{
    action *const sides[] = {run_ours, run_plain, run_openssl};
    double best[3];
    double rate[3] = {0};
#ifdef WITH_OPENSSL
    const int count = 3;
#else
    const int count = 2;
#endif
    message = room_for(LENGTH);
    fill(message, LENGTH, 1);
    for (length = 0; length <= SHORT; length++) {
        compare();
    }
    length = LENGTH;
    compare();
    best_seconds(sides, count, NULL, best);
    for (int k = 0; k < count; k++) {
        rate[k] = LENGTH / best[k] / 1e6;
    }
    if (argc > 1) {
        print_row(argv[1], "MB/s", 0, rate[0], rate[2]);
        return 0;
    }
    print_row("digest of 1 MiB; plain C", "MB/s", 0, rate[0], rate[1]);
    if (count == 3) {
        print_row("digest of 1 MiB; OpenSSL, its fastest", "MB/s", 0, rate[0], rate[2]);
    }
    free(message);
    return 0;
}
