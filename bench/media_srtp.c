/* The tags of SRTP packets (RFC 3711, AES_CM_128_HMAC_SHA1_80), without a library. The payload is sent as if it were encrypted: whatever
 * its bytes are, the receiver decrypts them to something, so only the tag has to be computed. */
#include <string.h>

#include "media.h"

/* AES-128 (FIPS 197). The table of substitutions is made of inverses in GF(2^8) and the affine map. */
static uint8_t substitution[256];

static uint8_t twice(uint8_t byte) { return (uint8_t)(byte << 1 ^ (byte >> 7) * 0x1b); }

static uint8_t rotated(uint8_t byte, int by) { return (uint8_t)(byte << by | byte >> (8 - by)); }

static void make_substitution(void) {
    uint8_t power = 1, inverse = 1; /* a power of 3, and its inverse */
    do {
        power ^= twice(power);
        inverse ^= (uint8_t)(inverse << 1);
        inverse ^= (uint8_t)(inverse << 2);
        inverse ^= (uint8_t)(inverse << 4);
        if (inverse & 0x80) inverse ^= 0x09;
        substitution[power] = inverse ^ rotated(inverse, 1) ^ rotated(inverse, 2) ^ rotated(inverse, 3) ^ rotated(inverse, 4) ^ 0x63;
    } while (power != 1);
    substitution[0] = 0x63;
}

static void next_round_key(uint8_t key[16], uint8_t constant) {
    for (int i = 0; i < 4; i++) key[i] ^= substitution[key[12 + (i + 1) % 4]];
    key[0] ^= constant;
    for (int i = 4; i < 16; i++) key[i] ^= key[i - 4];
}

static void mix_columns(uint8_t block[16]) {
    for (uint8_t *column = block; column < block + 16; column += 4) {
        uint8_t all = column[0] ^ column[1] ^ column[2] ^ column[3], first = column[0];
        for (int i = 0; i < 4; i++) column[i] ^= all ^ twice(column[i] ^ (i < 3 ? column[i + 1] : first));
    }
}

static void encrypt(const uint8_t key[16], uint8_t block[16]) {
    uint8_t round_key[16], moved[16], constant = 1;
    memcpy(round_key, key, 16);
    for (int i = 0; i < 16; i++) block[i] ^= round_key[i];
    for (int round = 1; round <= 10; round++, constant = twice(constant)) {
        for (int i = 0; i < 16; i++) moved[i] = substitution[block[(i + 4 * (i % 4)) % 16]];
        memcpy(block, moved, 16);
        if (round < 10) mix_columns(block);
        next_round_key(round_key, constant);
        for (int i = 0; i < 16; i++) block[i] ^= round_key[i];
    }
}

/* SHA-1 (FIPS 180-4): one block of a message into its state. */
static uint32_t turned(uint32_t word, int by) { return word << by | word >> (32 - by); }

static void sha1_block(uint32_t state[5], const uint8_t block[64]) {
    uint32_t words[80], a = state[0], b = state[1], c = state[2], d = state[3], e = state[4];
    for (int i = 0; i < 16; i++) {
        words[i] = (uint32_t)block[4 * i] << 24 | (uint32_t)block[4 * i + 1] << 16 | (uint32_t)block[4 * i + 2] << 8 | block[4 * i + 3];
    }
    for (int i = 16; i < 80; i++) words[i] = turned(words[i - 3] ^ words[i - 8] ^ words[i - 14] ^ words[i - 16], 1);
    for (int i = 0; i < 80; i++) {
        uint32_t mixed = i < 20   ? ((b & c) | (~b & d)) + 0x5a827999
                         : i < 40 ? (b ^ c ^ d) + 0x6ed9eba1
                         : i < 60 ? ((b & c) | (b & d) | (c & d)) + 0x8f1bbcdc
                                  : (b ^ c ^ d) + 0xca62c1d6;
        mixed += turned(a, 5) + e + words[i];
        e = d, d = c, c = turned(b, 30), b = a, a = mixed;
    }
    state[0] += a, state[1] += b, state[2] += c, state[3] += d, state[4] += e;
}

/* The end of a message of which a block of 64 bytes is in the state already. */
static void sha1_rest(uint32_t state[5], const uint8_t *rest, size_t length) {
    uint8_t last[64] = {0};
    uint64_t bits = (64 + length) * 8;
    for (; length >= 64; rest += 64, length -= 64) sha1_block(state, rest);
    memcpy(last, rest, length);
    last[length] = 0x80;
    if (length > 55) sha1_block(state, last), memset(last, 0, 64);
    for (int i = 0; i < 8; i++) last[56 + i] = (uint8_t)(bits >> (56 - 8 * i));
    sha1_block(state, last);
}

/* The session key of authentication (section 4.3, label 1, no key derivation rate), as the states of HMAC after its first blocks. */
void srtp_key_of(struct srtp_key *key, const uint8_t master[MASTER_LENGTH]) {
    static const uint32_t begin[5] = {0x67452301, 0xefcdab89, 0x98badcfe, 0x10325476, 0xc3d2e1f0};
    uint8_t session[64] = {0}, block[64];
    if (!substitution[0]) make_substitution();
    for (uint8_t i = 0; i < 2; i++) {
        memcpy(session + 16 * i, master + 16, 14);
        session[16 * i + 7] ^= 1;
        session[16 * i + 15] = i;
        encrypt(master, session + 16 * i);
    }
    memset(session + 20, 0, 44);
    memcpy(key->inner, begin, sizeof begin);
    memcpy(key->outer, begin, sizeof begin);
    for (int i = 0; i < 64; i++) block[i] = session[i] ^ 0x36;
    sha1_block(key->inner, block);
    for (int i = 0; i < 64; i++) block[i] = session[i] ^ 0x5c;
    sha1_block(key->outer, block);
}

void srtp_tag(const struct srtp_key *key, uint32_t roll_over, uint8_t *packet, size_t length) {
    uint32_t state[5];
    uint8_t digest[20];
    for (size_t i = 0; i < 4; i++) packet[length + i] = (uint8_t)(roll_over >> (24 - 8 * i)); /* covered by the tag, then overwritten by it */
    memcpy(state, key->inner, sizeof state);
    sha1_rest(state, packet, length + 4);
    for (int i = 0; i < 20; i++) digest[i] = (uint8_t)(state[i / 4] >> (24 - 8 * (i % 4)));
    memcpy(state, key->outer, sizeof state);
    sha1_rest(state, digest, 20);
    for (size_t i = 0; i < TAG_LENGTH; i++) packet[length + i] = (uint8_t)(state[i / 4] >> (24 - 8 * (i % 4)));
}
