// What the program kachumpe is compared with by bench/speed.py: the same work with OpenSSL's SHA-256, by the same rows of numbers of 32 bytes, the highest first:
//     a secret number is the hash of 0, the seed, the key, the bit's place and its value
//     what is shown of it is the hash of 1 and the secret number
//     a leaf is the hash of 2 and what is shown, for each bit both values
//     a node is the hash of 3 and the two nodes below it
// The low-level calls are used, since EVP takes longer for rows as short as these.
//     gcc -O3 -Wno-deprecated-declarations -o openssl bench/openssl.c -lcrypto
//     ./openssl root LEVELS BITS SEED init|copied|shared    the root of a tree with 2^LEVELS keys for BITS bits
//     ./openssl looks COUNT                                 how many of so many looks at a signature accept it, and its root
// Of a secret number's row the first 64 bytes are the same for all, and the first 128 for both values of a bit: with `copied` the state after the first 64 is worked out once and copied, with `shared` also that after 128, as the program does.
#include <openssl/sha.h>
#include <stdint.h>
#include <stdio.h>
#include <stdlib.h>
#include <string.h>

enum { NUMBER = 32, SECRET = 0, SHOWN = 1, LEAF = 2, NODE = 3, BITS = 256, LEVELS = 10 };
enum way { INIT, COPIED, SHARED };

static uint8_t seed[NUMBER];
static int bits;
// the state after the numbers 0 and the seed
static SHA256_CTX seeded;
static enum way way;

static void put(uint8_t *number, uint64_t value) {
    memset(number, 0, NUMBER);
    for (int i = 0; i < 8; i++)
        number[NUMBER - 1 - i] = (uint8_t)(value >> 8 * i);
}

static void print(const uint8_t *number) {
    for (int i = 0; i < NUMBER; i++)
        printf("%02x", number[i]);
    printf("\n");
}

static void hash(const uint8_t *row, int numbers, uint8_t *digest) {
    SHA256_CTX state;
    SHA256_Init(&state);
    SHA256_Update(&state, row, (size_t)(numbers * NUMBER));
    SHA256_Final(digest, &state);
}

static void set_seed(uint64_t value) {
    uint8_t number[NUMBER];
    put(seed, value);
    SHA256_Init(&seeded);
    put(number, SECRET);
    SHA256_Update(&seeded, number, NUMBER);
    SHA256_Update(&seeded, seed, NUMBER);
}

// Both secret numbers of a bit. The numbers 0, the seed and the key stand in front of the row already.
static void secrets(uint8_t row[5 * NUMBER], int place, uint8_t digests[2][NUMBER]) {
    put(row + 3 * NUMBER, (uint64_t)place);
    SHA256_CTX front = seeded;
    if (way == SHARED)
        SHA256_Update(&front, row + 2 * NUMBER, 2 * NUMBER);
    for (int value = 0; value < 2; value++) {
        put(row + 4 * NUMBER, (uint64_t)value);
        if (way == INIT) {
            hash(row, 5, digests[value]);
            continue;
        }
        SHA256_CTX state = front;
        int taken = way == SHARED ? 4 : 2;
        SHA256_Update(&state, row + taken * NUMBER, (size_t)((5 - taken) * NUMBER));
        SHA256_Final(digests[value], &state);
    }
}

static void begin_secret_row(uint8_t row[5 * NUMBER], uint64_t key) {
    put(row, SECRET);
    memcpy(row + NUMBER, seed, NUMBER);
    put(row + 2 * NUMBER, key);
}

static void show(const uint8_t *secret, uint8_t *shown) {
    uint8_t row[2 * NUMBER];
    put(row, SHOWN);
    memcpy(row + NUMBER, secret, NUMBER);
    hash(row, 2, shown);
}

static void begin_leaf(SHA256_CTX *state) {
    uint8_t number[NUMBER];
    put(number, LEAF);
    SHA256_Init(state);
    SHA256_Update(state, number, NUMBER);
}

static void leaf(uint64_t key, uint8_t *digest) {
    uint8_t row[5 * NUMBER], pair[2][NUMBER], number[NUMBER];
    SHA256_CTX state;
    begin_secret_row(row, key);
    begin_leaf(&state);
    for (int place = 0; place < bits; place++) {
        secrets(row, place, pair);
        for (int value = 0; value < 2; value++) {
            show(pair[value], number);
            SHA256_Update(&state, number, NUMBER);
        }
    }
    SHA256_Final(digest, &state);
}

static void join(const uint8_t *left, const uint8_t *right, uint8_t *digest) {
    uint8_t row[3 * NUMBER];
    put(row, NODE);
    memcpy(row + NUMBER, left, NUMBER);
    memcpy(row + 2 * NUMBER, right, NUMBER);
    hash(row, 3, digest);
}

static void node(int level, uint64_t index, uint8_t *digest) {
    if (level == 0) {
        leaf(index, digest);
        return;
    }
    uint8_t left[NUMBER], right[NUMBER];
    node(level - 1, 2 * index, left);
    node(level - 1, 2 * index + 1, right);
    join(left, right, digest);
}

// The signature by key 0 of all bits being set, as the program hash_speed looks at.
static uint8_t parts[BITS][NUMBER], others[BITS][NUMBER], path[LEVELS][NUMBER];

static void climb(const uint8_t *leaf, uint8_t *value) {
    memcpy(value, leaf, NUMBER);
    for (int level = 0; level < LEVELS; level++)
        join(value, path[level], value);
}

static int look(const uint8_t *root, const uint8_t set[BITS]) {
    uint8_t shown[NUMBER], value[NUMBER];
    SHA256_CTX state;
    begin_leaf(&state);
    for (int place = 0; place < BITS; place++) {
        show(parts[place], shown);
        SHA256_Update(&state, set[place] ? others[place] : shown, NUMBER);
        SHA256_Update(&state, set[place] ? shown : others[place], NUMBER);
    }
    SHA256_Final(value, &state);
    climb(value, value);
    return memcmp(value, root, NUMBER) == 0;
}

static void looks(unsigned long long count) {
    uint8_t row[5 * NUMBER], pair[2][NUMBER], root[NUMBER], set[2][BITS];
    begin_secret_row(row, 0);
    for (int place = 0; place < BITS; place++) {
        secrets(row, place, pair);
        memcpy(parts[place], pair[1], NUMBER);
        show(pair[0], others[place]);
    }
    memset(set, 1, sizeof set);
    set[1][BITS - 1] = 0;
    bits = BITS;
    for (int level = 0; level < LEVELS; level++)
        node(level, 1, path[level]);
    leaf(0, root);
    climb(root, root);
    unsigned long long taken = 0;
    for (unsigned long long i = 0; i < count; i++)
        taken += (unsigned)look(root, set[i % 2]);
    printf("%llu ", taken);
    print(root);
}

int main(int argc, char **argv) {
    if (argc == 6 && strcmp(argv[1], "root") == 0) {
        uint8_t root[NUMBER];
        bits = atoi(argv[3]);
        set_seed(strtoull(argv[4], NULL, 10));
        way = strcmp(argv[5], "init") == 0 ? INIT : strcmp(argv[5], "copied") == 0 ? COPIED : SHARED;
        node(atoi(argv[2]), 0, root);
        print(root);
        return 0;
    }
    if (argc == 3 && strcmp(argv[1], "looks") == 0) {
        set_seed(17);
        way = SHARED;
        looks(strtoull(argv[2], NULL, 10));
        return 0;
    }
    fprintf(stderr, "usage: openssl root LEVELS BITS SEED init|copied|shared, or openssl looks COUNT\n");
    return 2;
}
