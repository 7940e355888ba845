/* SLH-DSA-SHA2-128s, or SLH-DSA-SHA2-128f with -DFAST (FIPS 205), pure, deterministic and with an empty context: one hash after the other, over a
 * SHA-256 of plain C, as what bench/signatures.sh compares the lanes with. The block of PK.seed is hashed once, and of a FORS tree and of a
 * layer's tree each node is made once.
 *
 * It does what each line of the input names: `keygen`, `sign` or `verify`, of a message of 1,000 bytes; with the word `show` it writes the
 * public key and the signature, by which it is compared with other implementations. */
#include <stdint.h>
#include <stdio.h>
#include <string.h>

#ifdef FAST
enum { D = 22, H = 3, A = 6, K = 33, M = 34 };
#else
enum { D = 7, H = 9, A = 12, K = 14, M = 30 };
#endif
enum { N = 16, CHAINS = 35, WOTS = CHAINS * N, XMSS = WOTS + H * N, FORS = K * (A + 1) * N, LENGTH = N + FORS + D * XMSS };
enum { TREE_BITS = H * (D - 1), MD = (A * K + 7) / 8, TREE_BYTES = (TREE_BITS + 7) / 8 };
enum { WOTS_HASH, WOTS_PK, TREE, FORS_TREE, FORS_ROOTS, WOTS_PRF, FORS_PRF };

/* SHA-256 (FIPS 180-4) */

static const uint32_t ROUND[64] = {
    0x428a2f98, 0x71374491, 0xb5c0fbcf, 0xe9b5dba5, 0x3956c25b, 0x59f111f1, 0x923f82a4, 0xab1c5ed5, 0xd807aa98, 0x12835b01, 0x243185be, 0x550c7dc3,
    0x72be5d74, 0x80deb1fe, 0x9bdc06a7, 0xc19bf174, 0xe49b69c1, 0xefbe4786, 0x0fc19dc6, 0x240ca1cc, 0x2de92c6f, 0x4a7484aa, 0x5cb0a9dc, 0x76f988da,
    0x983e5152, 0xa831c66d, 0xb00327c8, 0xbf597fc7, 0xc6e00bf3, 0xd5a79147, 0x06ca6351, 0x14292967, 0x27b70a85, 0x2e1b2138, 0x4d2c6dfc, 0x53380d13,
    0x650a7354, 0x766a0abb, 0x81c2c92e, 0x92722c85, 0xa2bfe8a1, 0xa81a664b, 0xc24b8b70, 0xc76c51a3, 0xd192e819, 0xd6990624, 0xf40e3585, 0x106aa070,
    0x19a4c116, 0x1e376c08, 0x2748774c, 0x34b0bcb5, 0x391c0cb3, 0x4ed8aa4a, 0x5b9cca4f, 0x682e6ff3, 0x748f82ee, 0x78a5636f, 0x84c87814, 0x8cc70208,
    0x90befffa, 0xa4506ceb, 0xbef9a3f7, 0xc67178f2};
static const uint32_t INITIAL[8] = {0x6a09e667, 0xbb67ae85, 0x3c6ef372, 0xa54ff53a, 0x510e527f, 0x9b05688c, 0x1f83d9ab, 0x5be0cd19};

static uint32_t turned(uint32_t x, int by) { return x >> by | x << (32 - by); }

static void compress(uint32_t state[8], const uint8_t block[64]) {
    uint32_t w[64], a = state[0], b = state[1], c = state[2], d = state[3], e = state[4], f = state[5], g = state[6], h = state[7];
    for (int i = 0; i < 16; i++)
        w[i] = (uint32_t)block[4 * i] << 24 | (uint32_t)block[4 * i + 1] << 16 | (uint32_t)block[4 * i + 2] << 8 | block[4 * i + 3];
    for (int i = 16; i < 64; i++)
        w[i] = w[i - 16] + (turned(w[i - 15], 7) ^ turned(w[i - 15], 18) ^ w[i - 15] >> 3) + w[i - 7]
             + (turned(w[i - 2], 17) ^ turned(w[i - 2], 19) ^ w[i - 2] >> 10);
    /* eight rounds, in which each word's place turns once round, so that none is moved */
#define STEP(a, b, c, d, e, f, g, h, i)                                                                          \
    h += (turned(e, 6) ^ turned(e, 11) ^ turned(e, 25)) + (g ^ (e & (f ^ g))) + ROUND[i] + w[i], d += h,          \
    h += (turned(a, 2) ^ turned(a, 13) ^ turned(a, 22)) + ((a & b) | (c & (a | b)))
    for (int i = 0; i < 64; i += 8) {
        STEP(a, b, c, d, e, f, g, h, i), STEP(h, a, b, c, d, e, f, g, i + 1), STEP(g, h, a, b, c, d, e, f, i + 2);
        STEP(f, g, h, a, b, c, d, e, i + 3), STEP(e, f, g, h, a, b, c, d, i + 4), STEP(d, e, f, g, h, a, b, c, i + 5);
        STEP(c, d, e, f, g, h, a, b, i + 6), STEP(b, c, d, e, f, g, h, a, i + 7);
    }
    state[0] += a, state[1] += b, state[2] += c, state[3] += d, state[4] += e, state[5] += f, state[6] += g, state[7] += h;
}

/* the digest of what follows a state that has taken in so many bytes, whole blocks of them */
static void digest(const uint32_t from[8], uint64_t before, const uint8_t *x, size_t n, uint8_t out[32]) {
    uint32_t state[8];
    uint8_t block[64];
    uint64_t bits = (before + n) * 8;
    memcpy(state, from, sizeof state);
    for (; n >= 64; x += 64, n -= 64) compress(state, x);
    memset(block, 0, sizeof block);
    memcpy(block, x, n);
    block[n] = 0x80;
    if (n > 55) compress(state, block), memset(block, 0, sizeof block);
    for (int i = 0; i < 8; i++) block[56 + i] = bits >> (56 - 8 * i);
    compress(state, block);
    for (int i = 0; i < 32; i++) out[i] = state[i / 4] >> (24 - 8 * (i % 4));
}

static void sha256(const uint8_t *x, size_t n, uint8_t out[32]) { digest(INITIAL, 0, x, n, out); }

/* the tweakable hashes (section 11.2.1) */

struct seed {
    uint8_t bytes[N];
    uint32_t state[8];
};
struct keys {
    uint8_t secret[N], prf[N], root[N];
    struct seed seed;
};

static struct seed seed_of(const uint8_t bytes[N]) {
    struct seed seed;
    uint8_t block[64] = {0};
    memcpy(seed.bytes, bytes, N), memcpy(block, bytes, N), memcpy(seed.state, INITIAL, sizeof INITIAL);
    compress(seed.state, block);
    return seed;
}

static void hash(const struct seed *seed, int layer, uint64_t tree, int kind, uint32_t a, uint32_t b, uint32_t c, const uint8_t *x, size_t n, uint8_t out[N]) {
    uint8_t text[22 + WOTS + K * N], all[32];
    text[0] = layer;
    for (int i = 0; i < 8; i++) text[1 + i] = tree >> (56 - 8 * i);
    text[9] = kind;
    for (int i = 0; i < 4; i++) text[10 + i] = a >> (24 - 8 * i), text[14 + i] = b >> (24 - 8 * i), text[18 + i] = c >> (24 - 8 * i);
    memcpy(text + 22, x, n);
    digest(seed->state, 64, text, 22 + n, all);
    memcpy(out, all, N);
}

/* one tree over leaves that are made by their index; the path of one of them, and the root (Algorithms 9 and 15) */
typedef void leaf_of(const struct keys *keys, int layer, uint64_t tree, uint32_t pair, uint32_t index, uint8_t out[N]);

static void tree_path(const struct keys *keys, int layer, uint64_t tree, int kind, uint32_t pair, uint32_t first, int height, uint32_t index,
                      leaf_of *leaf, uint8_t *path, uint8_t root[N]) {
    static uint8_t nodes[(1 << 12) * N];
    uint32_t count = 1u << height;
    for (uint32_t i = 0; i < count; i++) leaf(keys, layer, tree, pair, first + i, nodes + i * N);
    for (int z = 0; z < height; z++, count /= 2) {
        if (path) memcpy(path + z * N, nodes + ((index >> z) ^ 1) * N, N);
        for (uint32_t i = 0; i < count / 2; i++)
            hash(&keys->seed, layer, tree, kind, pair, z + 1, (first >> (z + 1)) + i, nodes + 2 * i * N, 2 * N, nodes + i * N);
    }
    memcpy(root, nodes, N);
}

static void climb(const struct seed *seed, int layer, uint64_t tree, int kind, uint32_t pair, uint32_t first, int height, uint32_t index,
                  const uint8_t *path, uint8_t node[N]) {
    uint8_t both[2 * N];
    for (int z = 0; z < height; z++) {
        int right = index >> z & 1;
        memcpy(both + (right ? N : 0), node, N), memcpy(both + (right ? 0 : N), path + z * N, N);
        hash(seed, layer, tree, kind, pair, z + 1, (first + index) >> (z + 1), both, 2 * N, node);
    }
}

/* one-time keys (section 5) and their trees */

static void chain(const struct seed *seed, int layer, uint64_t tree, uint32_t pair, int number, int from, int to, uint8_t x[N]) {
    for (int step = from; step < to; step++) hash(seed, layer, tree, WOTS_HASH, pair, number, step, x, N, x);
}

static void wots_leaf(const struct keys *keys, int layer, uint64_t tree, uint32_t none, uint32_t pair, uint8_t out[N]) {
    uint8_t ends[WOTS];
    (void)none;
    for (int i = 0; i < CHAINS; i++) {
        hash(&keys->seed, layer, tree, WOTS_PRF, pair, i, 0, keys->secret, N, ends + i * N);
        chain(&keys->seed, layer, tree, pair, i, 0, 15, ends + i * N);
    }
    hash(&keys->seed, layer, tree, WOTS_PK, pair, 0, 0, ends, WOTS, out);
}

static void digits_of(const uint8_t message[N], int digits[CHAINS]) {
    int total = 0;
    for (int i = 0; i < 32; i++) digits[i] = i % 2 ? message[i / 2] & 15 : message[i / 2] >> 4, total += 15 - digits[i];
    digits[32] = total >> 8 & 15, digits[33] = total >> 4 & 15, digits[34] = total & 15;
}

/* few-time keys (section 8) */

static void fors_secret(const struct keys *keys, uint64_t tree, uint32_t pair, uint32_t index, uint8_t out[N]) {
    hash(&keys->seed, 0, tree, FORS_PRF, pair, 0, index, keys->secret, N, out);
}

static void fors_leaf(const struct keys *keys, int layer, uint64_t tree, uint32_t pair, uint32_t index, uint8_t out[N]) {
    uint8_t secret[N];
    fors_secret(keys, tree, pair, index, secret);
    hash(&keys->seed, layer, tree, FORS_TREE, pair, 0, index, secret, N, out);
}

/* the scheme (sections 9 and 10) */

static struct keys keys_of(const uint8_t seeds[48]) {
    struct keys keys;
    memcpy(keys.secret, seeds, N), memcpy(keys.prf, seeds + N, N);
    keys.seed = seed_of(seeds + 2 * N);
    tree_path(&keys, D - 1, 0, TREE, 0, 0, H, 0, wots_leaf, NULL, keys.root);
    return keys;
}

struct parts {
    uint32_t indices[K], leaf;
    uint64_t tree;
};

static struct parts parts_of(const uint8_t r[N], const struct seed *seed, const uint8_t root[N], const uint8_t *message, size_t n) {
    uint8_t text[3 * N + 2 + 4096], block[2 * N + 32 + 4], all[64];
    struct parts parts = {{0}, 0, 0};
    int at = 0;
    memcpy(text, r, N), memcpy(text + N, seed->bytes, N), memcpy(text + 2 * N, root, N), memset(text + 3 * N, 0, 2), memcpy(text + 3 * N + 2, message, n);
    memcpy(block, text, 2 * N);
    sha256(text, 3 * N + 2 + n, block + 2 * N);
    for (int i = 0; i < 2; i++) {
        memset(block + 2 * N + 32, 0, 4), block[2 * N + 35] = i;
        sha256(block, sizeof block, all + 32 * i);
    }
    for (int i = 0; i < K; i++)
        for (int bit = 0; bit < A; bit++, at++) parts.indices[i] = parts.indices[i] << 1 | (all[at / 8] >> (7 - at % 8) & 1);
    for (int i = 0; i < TREE_BYTES; i++) parts.tree = parts.tree << 8 | all[MD + i];
    for (int i = MD + TREE_BYTES; i < M; i++) parts.leaf = parts.leaf << 8 | all[i];
    parts.tree &= (1ull << TREE_BITS) - 1, parts.leaf &= (1u << H) - 1;
    return parts;
}

static void sign(const struct keys *keys, const uint8_t *message, size_t n, uint8_t *out) {
    uint8_t pad[64], inner[64 + N + 2 + 4096], mac[32], roots[K * N], node[N];
    memset(pad, 0x5c, 64), memset(inner, 0x36, 64);
    for (int i = 0; i < N; i++) pad[i] ^= keys->prf[i], inner[i] ^= keys->prf[i];
    memcpy(inner + 64, keys->seed.bytes, N), memset(inner + 64 + N, 0, 2), memcpy(inner + 64 + N + 2, message, n);
    sha256(inner, 64 + N + 2 + n, mac);
    memcpy(inner, pad, 64), memcpy(inner + 64, mac, 32);
    sha256(inner, 96, mac);
    memcpy(out, mac, N);
    struct parts parts = parts_of(out, &keys->seed, keys->root, message, n);
    out += N;
    for (int i = 0; i < K; i++, out += (A + 1) * N) {
        uint32_t first = (uint32_t)i << A;
        fors_secret(keys, parts.tree, parts.leaf, first + parts.indices[i], out);
        tree_path(keys, 0, parts.tree, FORS_TREE, parts.leaf, first, A, parts.indices[i], fors_leaf, out + N, roots + i * N);
    }
    hash(&keys->seed, 0, parts.tree, FORS_ROOTS, parts.leaf, 0, 0, roots, sizeof roots, node);
    for (int layer = 0; layer < D; layer++, out += XMSS) {
        int digits[CHAINS];
        digits_of(node, digits);
        for (int i = 0; i < CHAINS; i++) {
            hash(&keys->seed, layer, parts.tree, WOTS_PRF, parts.leaf, i, 0, keys->secret, N, out + i * N);
            chain(&keys->seed, layer, parts.tree, parts.leaf, i, 0, digits[i], out + i * N);
        }
        tree_path(keys, layer, parts.tree, TREE, 0, 0, H, parts.leaf, wots_leaf, out + WOTS, node);
        parts.leaf = parts.tree & ((1u << H) - 1), parts.tree >>= H;
    }
}

static int verify(const struct seed *seed, const uint8_t root[N], const uint8_t *message, size_t n, const uint8_t *in) {
    struct parts parts = parts_of(in, seed, root, message, n);
    uint8_t roots[K * N], node[N], ends[WOTS];
    in += N;
    for (int i = 0; i < K; i++, in += (A + 1) * N) {
        uint32_t first = (uint32_t)i << A;
        hash(seed, 0, parts.tree, FORS_TREE, parts.leaf, 0, first + parts.indices[i], in, N, roots + i * N);
        climb(seed, 0, parts.tree, FORS_TREE, parts.leaf, first, A, parts.indices[i], in + N, roots + i * N);
    }
    hash(seed, 0, parts.tree, FORS_ROOTS, parts.leaf, 0, 0, roots, sizeof roots, node);
    for (int layer = 0; layer < D; layer++, in += XMSS) {
        int digits[CHAINS];
        digits_of(node, digits);
        memcpy(ends, in, WOTS);
        for (int i = 0; i < CHAINS; i++) chain(seed, layer, parts.tree, parts.leaf, i, digits[i], 15, ends + i * N);
        hash(seed, layer, parts.tree, WOTS_PK, parts.leaf, 0, 0, ends, WOTS, node);
        climb(seed, layer, parts.tree, TREE, 0, 0, H, parts.leaf, in + WOTS, node);
        parts.leaf = parts.tree & ((1u << H) - 1), parts.tree >>= H;
    }
    return memcmp(node, root, N) == 0;
}

int main(int count, char **words) {
    static uint8_t seeds[48], message[1000], signature[LENGTH];
    char line[64];
    unsigned valid = 0, sum = 0;
    memset(seeds, 7, sizeof seeds), memset(message, 5, sizeof message);
    struct keys keys = keys_of(seeds);
    if (count > 1 && strcmp(words[1], "show") == 0) {
        sign(&keys, message, sizeof message, signature);
        fwrite(keys.seed.bytes, 1, N, stdout), fwrite(keys.root, 1, N, stdout), fwrite(signature, 1, LENGTH, stdout);
        return 0;
    }
    while (fgets(line, sizeof line, stdin)) {
        if (line[0] == 'k') {
            struct keys made = keys_of(seeds);
            sum ^= made.root[0];
        } else if (line[0] == 's') {
            sign(&keys, message, sizeof message, signature);
        } else {
            valid += verify(&keys.seed, keys.root, message, sizeof message, signature);
        }
    }
    printf("valid %u, first byte %u, %u\n", valid, signature[0], sum);
    return 0;
}
