/* What libsrtp2 and OpenSSL take to protect and to open a packet of SRTP (AES-128 in counter mode, HMAC-SHA1 with tags of 80 bits): prints
 * nanoseconds of processor time a packet, as crates/srtp_bench does. Usage: srtp libsrtp|openssl SIZE ROUNDS, a round being 64 packets. */
#include <openssl/crypto.h>
#include <openssl/evp.h>
#include <openssl/hmac.h>
#include <srtp2/srtp.h>
#include <stdint.h>
#include <stdio.h>
#include <stdlib.h>
#include <string.h>
#include <time.h>

#define BATCH 64
#define ROOM 2064
#define HEAD 12
#define TAG 10

static const uint8_t master[30] = {0xe1, 0xf9, 0x7a, 0x0d, 0x3e, 0x01, 0x8b, 0xe0, 0xd6, 0x4f, 0xa3, 0x2c, 0x06, 0xde, 0x41,
                                   0x39, 0x0e, 0xc6, 0x75, 0xad, 0x49, 0x8a, 0xfe, 0xeb, 0xb6, 0x96, 0x0b, 0x3a, 0xab, 0xe6};

static uint8_t packets[BATCH][ROOM];

static void fail(const char *what) {
    fprintf(stderr, "srtp: %s\n", what);
    exit(1);
}

static uint64_t nanos(void) {
    struct timespec now;
    clock_gettime(CLOCK_PROCESS_CPUTIME_ID, &now);
    return (uint64_t)now.tv_sec * 1000000000u + (uint64_t)now.tv_nsec;
}

static void number(uint8_t *packet, uint16_t seq) {
    packet[2] = (uint8_t)(seq >> 8);
    packet[3] = (uint8_t)seq;
}

/* libsrtp2 */
static srtp_t sender, receiver;

static srtp_t session(srtp_ssrc_type_t direction) {
    static uint8_t key[30];
    srtp_policy_t policy;
    srtp_t made;
    memcpy(key, master, sizeof key);
    memset(&policy, 0, sizeof policy);
    srtp_crypto_policy_set_aes_cm_128_hmac_sha1_80(&policy.rtp);
    srtp_crypto_policy_set_aes_cm_128_hmac_sha1_80(&policy.rtcp);
    policy.ssrc.type = direction;
    policy.key = key;
    policy.window_size = 128;
    if (srtp_create(&made, &policy) != srtp_err_status_ok) fail("srtp_create");
    return made;
}

static void libsrtp_start(void) {
    if (srtp_init() != srtp_err_status_ok) fail("srtp_init");
    sender = session(ssrc_any_outbound);
    receiver = session(ssrc_any_inbound);
}

static void libsrtp_protect(uint8_t *packet, int size) {
    if (srtp_protect(sender, packet, &size) != srtp_err_status_ok) fail("srtp_protect");
}

static void libsrtp_open(uint8_t *packet, int size) {
    size += TAG;
    if (srtp_unprotect(receiver, packet, &size) != srtp_err_status_ok) fail("srtp_unprotect");
}

/* OpenSSL: the two ciphers under fixed session keys, without sources and windows */
static EVP_CIPHER_CTX *cipher;
static HMAC_CTX *mac;

static void openssl_start(void) {
    cipher = EVP_CIPHER_CTX_new();
    mac = HMAC_CTX_new();
    if (!EVP_EncryptInit_ex(cipher, EVP_aes_128_ctr(), NULL, master, NULL)) fail("EVP_EncryptInit_ex");
    if (!HMAC_Init_ex(mac, master, 20, EVP_sha1(), NULL)) fail("HMAC_Init_ex");
}

static void openssl_cipher(uint8_t *packet, int size) {
    uint8_t counter[16] = {0};
    int made;
    memcpy(counter + 4, packet + 8, 4);
    memcpy(counter + 12, packet + 2, 2);
    if (!EVP_EncryptInit_ex(cipher, NULL, NULL, NULL, counter)) fail("EVP_EncryptInit_ex");
    if (!EVP_EncryptUpdate(cipher, packet + HEAD, &made, packet + HEAD, size - HEAD)) fail("EVP_EncryptUpdate");
}

static void openssl_code(uint8_t code[20], const uint8_t *packet, int size) {
    static const uint8_t rollover[4];
    unsigned made = 20;
    if (!HMAC_Init_ex(mac, NULL, 0, NULL, NULL) || !HMAC_Update(mac, packet, (size_t)size) || !HMAC_Update(mac, rollover, 4) ||
        !HMAC_Final(mac, code, &made))
        fail("HMAC");
}

static void openssl_protect(uint8_t *packet, int size) {
    uint8_t code[20];
    openssl_cipher(packet, size);
    openssl_code(code, packet, size);
    memcpy(packet + size, code, TAG);
}

static void openssl_open(uint8_t *packet, int size) {
    uint8_t code[20];
    openssl_code(code, packet, size);
    if (CRYPTO_memcmp(packet + size, code, TAG)) fail("a tag that isn't the packet's");
    openssl_cipher(packet, size);
}

int main(int count, char **words) {
    if (count != 4) fail("libsrtp|openssl SIZE ROUNDS");
    int is_libsrtp = strcmp(words[1], "libsrtp") == 0, size = atoi(words[2]), rounds = atoi(words[3]);
    if (size < HEAD || size > 2000 || rounds < 1) fail("a size of 12 to 2000, and rounds");
    uint64_t protecting = 0, opening = 0;
    uint16_t seq = 0;
    for (int i = 0; i < BATCH; i++) {
        memcpy(packets[i], "\x80\x00\x00\x00\x00\x00\x00\x00\x11\x11\x11\x11", HEAD);
        for (int k = HEAD; k < ROOM; k++) packets[i][k] = 0x5a;
    }
    if (is_libsrtp)
        libsrtp_start();
    else
        openssl_start();
    for (int round = 0; round < rounds; round++) {
        for (int i = 0; i < BATCH; i++) number(packets[i], seq++);
        uint64_t start = nanos();
        if (is_libsrtp)
            for (int i = 0; i < BATCH; i++) libsrtp_protect(packets[i], size);
        else
            for (int i = 0; i < BATCH; i++) openssl_protect(packets[i], size);
        uint64_t between = nanos();
        if (is_libsrtp)
            for (int i = 0; i < BATCH; i++) libsrtp_open(packets[i], size);
        else
            for (int i = 0; i < BATCH; i++) openssl_open(packets[i], size);
        protecting += between - start;
        opening += nanos() - between;
    }
    uint64_t all = (uint64_t)rounds * BATCH;
    printf("protect %llu ns open %llu ns\n", (unsigned long long)(protecting / all), (unsigned long long)(opening / all));
    return 0;
}
