/* SC-MS over GF(64) with CCSK chips: decoding, encoding and weighing by hand,
 * with the vector instructions of plain x86-64 (SSE2) and nothing newer.
 *
 * The decoder's check node is the blocked form: eight copies of theta with its
 * low three index bits turned, then for each c eight sums of eight lanes and
 * eight lane-wise minima.  There are two forms of it.  blocked_decode has the
 * literal one: each copy is loaded, x[c] is added to it, and the minimum taken.
 * blocked_decode_differences holds the eight results less x[c] for the c at
 * hand, so that a step is one addition to the results and one minimum with a
 * copy in memory: the same additions and minima, but no register and no load
 * for the sum.
 */

#include <emmintrin.h>
#include <stddef.h>
#include <stdint.h>

#define MOST_PLACES 256
#define INLINE static inline __attribute__((always_inline))

typedef __m128i vec;

/* --- Field --------------------------------------------------------------- */

/* The product of two symbols before and after reduction by a^6 = a + 1.  The
 * part from a^6 on has five bits, so one replacement is enough. */
#define RAW(a, b)                                                             \
    ((a) * ((b) & 1) ^ (a) * ((b) & 2) ^ (a) * ((b) & 4) ^ (a) * ((b) & 8) ^  \
     (a) * ((b) & 16) ^ (a) * ((b) & 32))
#define PRODUCT(a, b)                                                         \
    ((RAW(a, b) & 63) ^ RAW(a, b) >> 6 ^ (RAW(a, b) >> 6) << 1)
#define P4(a, b)                                                              \
    PRODUCT(a, b), PRODUCT(a, (b) + 1), PRODUCT(a, (b) + 2),                  \
        PRODUCT(a, (b) + 3)
#define P16(a, b) P4(a, b), P4(a, (b) + 4), P4(a, (b) + 8), P4(a, (b) + 12)
#define P_ROW(a) {P16(a, 0), P16(a, 16), P16(a, 32), P16(a, 48)}
#define ROWS4(a) P_ROW(a), P_ROW((a) + 1), P_ROW((a) + 2), P_ROW((a) + 3)
#define ROWS16(a) ROWS4(a), ROWS4((a) + 4), ROWS4((a) + 8), ROWS4((a) + 12)

static const uint8_t products[64][64] __attribute__((aligned(64))) = {
    ROWS16(0), ROWS16(16), ROWS16(32), ROWS16(48)};

/* --- Vectors ------------------------------------------------------------- */

INLINE vec load(const void *from) { return _mm_loadu_si128(from); }

INLINE void store(void *to, vec v) { _mm_storeu_si128(to, v); }

/* The eight lanes with lane i at i ^ 1. */
INLINE vec swap_ones(vec v)
{
    return _mm_shufflehi_epi16(_mm_shufflelo_epi16(v, 0xB1), 0xB1);
}

/* The eight lanes with lane i at i ^ k, for a constant k from 0 to 7. */
INLINE vec swap_lanes(vec v, int k)
{
    if ((k & 3) == 3) {
        v = _mm_shufflehi_epi16(_mm_shufflelo_epi16(v, 0x1B), 0x1B);
        k &= 4;
    } else if (k & 1) {
        v = swap_ones(v);
    }
    switch (k >> 1) {
    case 1: return _mm_shuffle_epi32(v, 0xB1);
    case 2: return _mm_shuffle_epi32(v, 0x4E);
    case 3: return _mm_shuffle_epi32(v, 0x1B);
    default: return v;
    }
}

/* The least of the eight lanes, in each of them. */
INLINE vec least_lane(vec v)
{
    v = _mm_min_epi16(v, _mm_shuffle_epi32(v, 0x4E));
    v = _mm_min_epi16(v, _mm_shuffle_epi32(v, 0xB1));
    return _mm_min_epi16(v, swap_ones(v));
}

/* The greatest of the eight lanes, in each of them. */
INLINE vec greatest_lane(vec v)
{
    v = _mm_max_epi16(v, _mm_shuffle_epi32(v, 0x4E));
    v = _mm_max_epi16(v, _mm_shuffle_epi32(v, 0xB1));
    return _mm_max_epi16(v, swap_ones(v));
}

/* Eight penalties of phi in lanes 0 to 7: those at the products row[0],
 * row[step], ..., row[7 * step]. */
INLINE vec gather(const uint16_t *phi, const uint8_t *row, int step)
{
    vec v = _mm_cvtsi32_si128(phi[row[0]]);
    v = _mm_insert_epi16(v, phi[row[step]], 1);
    v = _mm_insert_epi16(v, phi[row[2 * step]], 2);
    v = _mm_insert_epi16(v, phi[row[3 * step]], 3);
    v = _mm_insert_epi16(v, phi[row[4 * step]], 4);
    v = _mm_insert_epi16(v, phi[row[5 * step]], 5);
    v = _mm_insert_epi16(v, phi[row[6 * step]], 6);
    return _mm_insert_epi16(v, phi[row[7 * step]], 7);
}

/* --- Check nodes --------------------------------------------------------- */

/* The eight copies of theta: vector 8 * k + j holds its entries i ^ k for i
 * from 8 * j. */
INLINE void copy_theta(vec *w, const uint16_t *theta)
{
#pragma GCC unroll 8
    for (int j = 0; j < 8; j++) {
        vec v = load(theta + 8 * j);
        vec turned = swap_ones(v);
        w[j] = v;
        w[8 + j] = turned;
        w[16 + j] = swap_lanes(v, 2);
        w[24 + j] = swap_lanes(turned, 2);
        w[32 + j] = swap_lanes(v, 4);
        w[40 + j] = swap_lanes(turned, 4);
        w[48 + j] = swap_lanes(v, 6);
        w[56 + j] = swap_lanes(turned, 6);
    }
}

/* One c = 8 * ch + cl for all eight results; w is the copy for cl.  By is x[c],
 * or for the form by differences the x before it less x[c]. */
INLINE void advance(vec *results, const vec *w, int ch, vec by, int differences)
{
#pragma GCC unroll 8
    for (int bh = 0; bh < 8; bh++) {
        vec copy = w[bh ^ ch];
        if (differences) {
            vec moved = _mm_add_epi16(results[bh], by);
            results[bh] = _mm_min_epi16(moved, copy);
        } else {
            vec sum = _mm_add_epi16(copy, by);
            results[bh] = _mm_min_epi16(results[bh], sum);
        }
    }
}

/* The eight c of one cl, ch from 0 to 7; by has a lane for each. */
INLINE void advance_eight(vec *results, const vec *w, vec by, int differences)
{
    vec low = _mm_unpacklo_epi16(by, by);
    vec high = _mm_unpackhi_epi16(by, by);
    advance(results, w, 0, _mm_shuffle_epi32(low, 0x00), differences);
    advance(results, w, 1, _mm_shuffle_epi32(low, 0x55), differences);
    advance(results, w, 2, _mm_shuffle_epi32(low, 0xAA), differences);
    advance(results, w, 3, _mm_shuffle_epi32(low, 0xFF), differences);
    advance(results, w, 4, _mm_shuffle_epi32(high, 0x00), differences);
    advance(results, w, 5, _mm_shuffle_epi32(high, 0x55), differences);
    advance(results, w, 6, _mm_shuffle_epi32(high, 0xAA), differences);
    advance(results, w, 7, _mm_shuffle_epi32(high, 0xFF), differences);
}

/* A check node.  x lies in the order of cl, then ch, from x[8] on.  Literally,
 * the results begin above every sum.  By differences x[7] is made the first x,
 * so that the first step moves the results by 0; they begin as the first copy,
 * theta plus x[0] less x[0], and the last x is added at the end. */
INLINE void check_node(uint16_t *out, const uint16_t *theta,
                       const uint16_t *phi, const uint8_t *row, int differences)
{
    vec w[64], results[8], last = _mm_setzero_si128();
    uint16_t x[72] __attribute__((aligned(16)));
#pragma GCC unroll 8
    for (int cl = 0; cl < 8; cl++) {
        store(x + 8 + 8 * cl, gather(phi, row + cl, 8));
    }
    x[7] = phi[0];
    copy_theta(w, theta);
#pragma GCC unroll 8
    for (int bh = 0; bh < 8; bh++) {
        results[bh] = differences ? w[bh] : _mm_set1_epi16(0x7FFF);
    }
#pragma GCC unroll 1
    for (int cl = 0; cl < 8; cl++) {
        vec by = load(x + 8 + 8 * cl);
        if (differences) {
            by = _mm_sub_epi16(load(x + 7 + 8 * cl), by);
        }
        advance_eight(results, w + 8 * cl, by, differences);
    }
    if (differences) {
        last = _mm_set1_epi16((short)x[71]);
    }
#pragma GCC unroll 8
    for (int bh = 0; bh < 8; bh++) {
        store(out + 8 * bh, _mm_add_epi16(results[bh], last));
    }
}

/* The check nodes of a block's kernels, in one form, a constant: held has
 * 2 * half vectors. */
INLINE void check_nodes_by(uint16_t *out, const uint16_t *held,
                           const uint8_t *coefs, size_t half, int differences)
{
    const uint16_t *phi = held + 64 * half;
    for (size_t i = 0; i < half; i++) {
        check_node(out + 64 * i, held + 64 * i, phi + 64 * i,
                   products[coefs[i]], differences);
    }
}

/* The same in either form. */
static void check_nodes(uint16_t *out, const uint16_t *held,
                        const uint8_t *coefs, size_t half, int differences)
{
    if (differences) {
        check_nodes_by(out, held, coefs, half, 1);
    } else {
        check_nodes_by(out, held, coefs, half, 0);
    }
}

/* --- Variable nodes ------------------------------------------------------ */

/* Add theta[u ^ c] to the 64 sums, for a u whose low three bits are k: those
 * turn the lanes, the high three exchange vectors. */
INLINE void add_turned(vec *sums, const uint16_t *theta, size_t high, int k)
{
#pragma GCC unroll 8
    for (size_t i = 0; i < 8; i++) {
        vec v = load(theta + (8 * i ^ high));
        sums[i] = _mm_add_epi16(sums[i], swap_lanes(v, k));
    }
}

/* Add theta[u ^ c] to the 64 sums. */
INLINE void add_theta(vec *sums, const uint16_t *theta, size_t u)
{
    size_t high = u & 56;
    switch (u & 7) {
    case 0: add_turned(sums, theta, high, 0); break;
    case 1: add_turned(sums, theta, high, 1); break;
    case 2: add_turned(sums, theta, high, 2); break;
    case 3: add_turned(sums, theta, high, 3); break;
    case 4: add_turned(sums, theta, high, 4); break;
    case 5: add_turned(sums, theta, high, 5); break;
    case 6: add_turned(sums, theta, high, 6); break;
    case 7: add_turned(sums, theta, high, 7); break;
    }
}

/* A variable node; returns count less 1 in a lane for each entry clipped, and
 * adds what it takes off to each lane of taken. */
INLINE vec variable_node(uint16_t *out, const uint16_t *theta,
                         const uint16_t *phi, const uint8_t *row, size_t u,
                         vec cap, vec count, vec *taken)
{
    vec sums[8], least, v;
#pragma GCC unroll 8
    for (int i = 0; i < 8; i++) {
        sums[i] = gather(phi, row + 8 * i, 1);
    }
    add_theta(sums, theta, u);
    least = sums[0];
#pragma GCC unroll 8
    for (int i = 1; i < 8; i++) {
        least = _mm_min_epi16(least, sums[i]);
    }
    least = least_lane(least);
    *taken = _mm_add_epi16(*taken, least);
#pragma GCC unroll 8
    for (int i = 0; i < 8; i++) {
        v = _mm_sub_epi16(sums[i], least);
        count = _mm_add_epi16(count, _mm_cmpgt_epi16(v, cap));
        store(out + 8 * i, _mm_min_epi16(v, cap));
    }
    return count;
}

/* The variable nodes of a block's kernels; word has the first half's word.
 * Returns what all of them took off, and counts in *count. */
static uint16_t variable_nodes(uint16_t *out, const uint16_t *held,
                               const uint8_t *coefs, size_t half,
                               const uint8_t *word, vec cap, vec *count)
{
    const uint16_t *phi = held + 64 * half;
    vec clipped = *count, taken = _mm_setzero_si128();
    for (size_t i = 0; i < half; i++) {
        clipped = variable_node(out + 64 * i, held + 64 * i, phi + 64 * i,
                                products[coefs[i]], word[i], cap, clipped,
                                &taken);
    }
    *count = clipped;
    return (uint16_t)_mm_extract_epi16(taken, 0);
}

/* --- Decoding by halves -------------------------------------------------- */

/* What all blocks of one call share.  Word has, for blocks that are done, the
 * symbols on the channel's side of their kernels.  Count has minus the number
 * of clipped entries in eight lanes; a lane gets at most 8 of each of the 1,024
 * variable nodes.  Differences is the form of the check nodes. */
struct call {
    vec cap, count;
    int differences;
    size_t places;
    const uint8_t *map;
    uint8_t *symbols;
    uint16_t *report, *totals;
    uint8_t word[MOST_PLACES];
};

/* Bit i tells whether penalty i of 16 is 0; they are below 2^15. */
INLINE uint64_t zeros(const uint16_t *penalties)
{
    vec bytes = _mm_packus_epi16(load(penalties), load(penalties + 8));
    vec equal = _mm_cmpeq_epi8(bytes, _mm_setzero_si128());
    return (uint64_t)(uint32_t)_mm_movemask_epi8(equal);
}

/* Decide a place from its report, and write what was taken off along its line.
 * A vector of a node always has a 0, so the smallest value of least penalty is
 * the first 0. */
INLINE void decide(struct call *call, size_t place, uint16_t taken)
{
    const uint16_t *held = call->report + 64 * place;
    size_t symbol = 0;
    if (call->map[place] == 0) {
        uint64_t found = zeros(held) | zeros(held + 16) << 16 |
                         zeros(held + 32) << 32 | zeros(held + 48) << 48;
        symbol = (size_t)__builtin_ctzll(found);
    }
    call->symbols[place] = (uint8_t)symbol;
    call->word[place] = (uint8_t)symbol;
    call->totals[place] = taken;
}

/* Join the words of the two halves of a block by its kernels. */
INLINE void join(uint8_t *word, const uint8_t *coefs, size_t half)
{
    for (size_t i = 0; i < half; i++) {
        uint8_t r = word[half + i];
        word[i] ^= r;
        word[half + i] = products[coefs[i]][r];
    }
}

/* Decode the block of 2 * half places from place, whose vectors on the
 * channel's side are held, and in whose lines taken was taken off before.
 * Coefs are those of its layer from its first kernel; those of the block's
 * later layers begin at coefs plus multiples of N/2. */
static void decode_block(struct call *call, size_t half, size_t place,
                         uint16_t taken, const uint8_t *coefs,
                         const uint16_t *held, uint16_t *scratch)
{
    uint8_t *word = call->word + place;
    if (half == 1) {
        uint16_t *out = call->report + 64 * place;
        check_nodes(out, held, coefs, 1, call->differences);
        decide(call, place, taken);
        taken += variable_nodes(out + 64, held, coefs, 1, word, call->cap,
                                &call->count);
        decide(call, place + 1, taken);
    } else {
        const uint8_t *next = coefs + call->places / 2;
        uint16_t *deeper = scratch + 64 * half;
        check_nodes(scratch, held, coefs, half, call->differences);
        decode_block(call, half / 2, place, taken, next, scratch, deeper);
        taken += variable_nodes(scratch, held, coefs, half, word, call->cap,
                                &call->count);
        decode_block(call, half / 2, place + half, taken, next + half / 2,
                     scratch, deeper);
    }
    /* No variable node reads the word of a block that ends with the frame. */
    if (place + 2 * half < call->places) {
        join(word, coefs, half);
    }
}

/* --- Refusals ------------------------------------------------------------ */

/* All bytes joined by or. */
static uint8_t any_bits(const uint8_t *bytes, size_t length)
{
    vec all = _mm_setzero_si128();
    uint8_t lanes[16], found = 0;
    size_t i = 0;
    for (; i + 16 <= length; i += 16) {
        all = _mm_or_si128(all, load(bytes + i));
    }
    store(lanes, all);
    for (; i < length; i++) {
        found |= bytes[i];
    }
    for (int k = 0; k < 16; k++) {
        found |= lanes[k];
    }
    return found;
}

/* The number of 0 bytes. */
static size_t count_zeros(const uint8_t *bytes, size_t length)
{
    vec zero = _mm_setzero_si128(), sums = zero;
    size_t i = 0, tail = 0;
    for (; i + 16 <= length; i += 16) {
        vec equal = _mm_cmpeq_epi8(load(bytes + i), zero);
        equal = _mm_sad_epu8(_mm_sub_epi8(zero, equal), zero);
        sums = _mm_add_epi64(sums, equal);
    }
    for (; i < length; i++) {
        tail += bytes[i] == 0;
    }
    sums = _mm_add_epi64(sums, _mm_unpackhi_epi64(sums, sums));
    return tail + (size_t)_mm_cvtsi128_si64(sums);
}

/* Whether some coefficient is 0 or above 63: less 1, as a byte, above 62. */
static int bad_coefficients(const uint8_t *coefs, size_t length)
{
    vec one = _mm_set1_epi8(1), most = _mm_set1_epi8(62), greatest = most;
    size_t i = 0;
    uint32_t bad = 0;
    for (; i + 16 <= length; i += 16) {
        vec v = _mm_sub_epi8(load(coefs + i), one);
        greatest = _mm_max_epu8(greatest, v);
    }
    for (; i < length; i++) {
        bad |= (uint32_t)coefs[i] - 1 > 62;
    }
    return bad || _mm_movemask_epi8(_mm_cmpeq_epi8(greatest, most)) != 0xFFFF;
}

/* Refusals 8 and 9 over a whole frame, else 0.  The penalties are packed to
 * bytes: 0 to 127 stay, and what is above becomes 127 or more. */
static uint8_t frame_refusal(const uint16_t *frame, size_t places, uint32_t qc)
{
    vec zero = _mm_setzero_si128(), bits = zero;
    int lacking = 0;
    for (size_t place = 0; place < places; place++, frame += 64) {
        vec least = _mm_packs_epi16(load(frame), load(frame + 8));
        bits = _mm_or_si128(bits, least);
#pragma GCC unroll 4
        for (int i = 16; i < 64; i += 16) {
            vec v = _mm_packs_epi16(load(frame + i), load(frame + i + 8));
            bits = _mm_or_si128(bits, v);
            least = _mm_min_epu8(least, v);
        }
        if (_mm_movemask_epi8(_mm_cmpeq_epi8(least, zero)) == 0) {
            lacking = 1;
        }
    }
    bits = _mm_subs_epu8(bits, _mm_set1_epi8((char)((1 << qc) - 1)));
    if (_mm_movemask_epi8(_mm_cmpeq_epi8(bits, zero)) != 0xFFFF) {
        return 8;
    }
    return lacking ? 9 : 0;
}

/* Refusals 4, 5 and 6 of a code of the needed lengths, else 0. */
static uint8_t code_refusal(const uint8_t *map, size_t places,
                            const uint8_t *coefs, size_t coefs_len,
                            size_t message_places)
{
    if (any_bits(map, places) > 1) {
        return 4;
    }
    if (message_places == 0) {
        return 5;
    }
    return bad_coefficients(coefs, coefs_len) ? 6 : 0;
}

/* --- The decoding call --------------------------------------------------- */

/* Write zeros to the 65 * N numbers of the work buffer; the last vector may
 * overlap the one before it. */
static void clear(uint16_t *work, size_t places)
{
    vec zero = _mm_setzero_si128();
    uint16_t *end = work + 65 * places;
    for (; work + 8 < end; work += 8) {
        store(work, zero);
    }
    store(end - 8, zero);
}

/* The refusal of a decoding call, 0 where the call is taken. */
static uint8_t decode_refusal(size_t n, const uint8_t *map, size_t map_len,
                              const uint8_t *coefs, size_t coefs_len,
                              uint32_t qc, uint32_t qm, const uint16_t *frame,
                              size_t frame_len, size_t work_len,
                              size_t symbols_len, size_t report_len,
                              size_t totals_len)
{
    if (n < 1 || n > 8) {
        return 1;
    }
    size_t places = (size_t)1 << n;
    if (map_len != places || coefs_len != n * (places / 2) ||
        frame_len != 64 * places || work_len != 65 * places ||
        symbols_len != places || report_len != 64 * places ||
        totals_len != places) {
        return 2;
    }
    if (qc < 1 || qc > 5 || qm < qc || qm > 13) {
        return 3;
    }
    uint8_t refusal = code_refusal(map, places, coefs, coefs_len,
                                   count_zeros(map, places));
    return refusal != 0 ? refusal : frame_refusal(frame, places, qc);
}

/* Decode a frame that is taken, with the check nodes in either form. */
static void decode(size_t n, const uint8_t *map, const uint8_t *coefs,
                   uint32_t qm, const uint16_t *frame, uint16_t *work,
                   uint8_t *symbols, uint16_t *report, uint16_t *totals,
                   uint32_t *count, int differences)
{
    size_t places = (size_t)1 << n;
    struct call call = {.cap = _mm_set1_epi16((short)((1 << qm) - 1)),
                        .differences = differences, .places = places,
                        .map = map, .symbols = symbols, .report = report,
                        .totals = totals};
    decode_block(&call, places / 2, 0, 0, coefs, frame, work);
    clear(work, places);
    vec sums = _mm_madd_epi16(call.count, _mm_set1_epi16(-1));
    sums = _mm_add_epi32(sums, _mm_shuffle_epi32(sums, 0x4E));
    sums = _mm_add_epi32(sums, _mm_shuffle_epi32(sums, 0xB1));
    *count = (uint32_t)_mm_cvtsi128_si32(sums);
}

/* Decode a frame: the symbols, the report, the totals and the count of clipped
 * entries. */
uint8_t blocked_decode(size_t n, const uint8_t *map, size_t map_len,
                       const uint8_t *coefs, size_t coefs_len, uint32_t qc,
                       uint32_t qm, const uint16_t *frame, size_t frame_len,
                       uint16_t *work, size_t work_len, uint8_t *symbols,
                       size_t symbols_len, uint16_t *report, size_t report_len,
                       uint16_t *totals, size_t totals_len, uint32_t *count)
{
    uint8_t refusal = decode_refusal(n, map, map_len, coefs, coefs_len, qc, qm,
                                     frame, frame_len, work_len, symbols_len,
                                     report_len, totals_len);
    if (refusal == 0) {
        decode(n, map, coefs, qm, frame, work, symbols, report, totals, count,
               0);
    }
    return refusal;
}

/* The same by differences. */
uint8_t blocked_decode_differences(
    size_t n, const uint8_t *map, size_t map_len, const uint8_t *coefs,
    size_t coefs_len, uint32_t qc, uint32_t qm, const uint16_t *frame,
    size_t frame_len, uint16_t *work, size_t work_len, uint8_t *symbols,
    size_t symbols_len, uint16_t *report, size_t report_len, uint16_t *totals,
    size_t totals_len, uint32_t *count)
{
    uint8_t refusal = decode_refusal(n, map, map_len, coefs, coefs_len, qc, qm,
                                     frame, frame_len, work_len, symbols_len,
                                     report_len, totals_len);
    if (refusal == 0) {
        decode(n, map, coefs, qm, frame, work, symbols, report, totals, count,
               1);
    }
    return refusal;
}

/* --- Encoding ------------------------------------------------------------ */

/* Sixteen products of symbols, from the highest bit of r down. */
INLINE vec multiply(vec h, vec r)
{
    vec zero = _mm_setzero_si128();
    vec most = _mm_set1_epi8(63), rule = _mm_set1_epi8(67);
    r = _mm_slli_epi16(r, 2);
    vec result = _mm_and_si128(h, _mm_cmpgt_epi8(zero, r));
#pragma GCC unroll 5
    for (int bit = 4; bit >= 0; bit--) {
        r = _mm_add_epi8(r, r);
        result = _mm_add_epi8(result, result);
        vec over = _mm_and_si128(rule, _mm_cmpgt_epi8(result, most));
        vec more = _mm_and_si128(h, _mm_cmpgt_epi8(zero, r));
        result = _mm_xor_si128(_mm_xor_si128(result, over), more);
    }
    return result;
}

/* Sixteen kernels whose places are 16 or more apart. */
INLINE void kernels_apart(uint8_t *word, size_t distance, const uint8_t *coefs)
{
    vec r = load(word + distance);
    store(word, _mm_xor_si128(load(word), r));
    store(word + distance, multiply(load(coefs), r));
}

/* Part the 32 symbols of sixteen kernels at distance 8, 4, 2 or 1 into those of
 * theta and those of phi, in rising order. */
INLINE void part(vec a, vec b, int distance, vec *theta, vec *phi)
{
    if (distance == 8) {
        *theta = _mm_unpacklo_epi64(a, b);
        *phi = _mm_unpackhi_epi64(a, b);
    } else if (distance == 4) {
        __m128 x = _mm_castsi128_ps(a), y = _mm_castsi128_ps(b);
        *theta = _mm_castps_si128(_mm_shuffle_ps(x, y, 0x88));
        *phi = _mm_castps_si128(_mm_shuffle_ps(x, y, 0xDD));
    } else if (distance == 2) {
        vec low = _mm_set1_epi32(0xFFFF);
        *theta = _mm_packs_epi32(_mm_and_si128(a, low), _mm_and_si128(b, low));
        *phi = _mm_packs_epi32(_mm_srli_epi32(a, 16), _mm_srli_epi32(b, 16));
    } else {
        vec low = _mm_set1_epi16(0xFF);
        *theta = _mm_packus_epi16(_mm_and_si128(a, low), _mm_and_si128(b, low));
        *phi = _mm_packus_epi16(_mm_srli_epi16(a, 8), _mm_srli_epi16(b, 8));
    }
}

/* Sixteen kernels at distance 8, 4, 2 or 1, a constant. */
INLINE void kernels_near(uint8_t *word, int distance, const uint8_t *coefs)
{
    vec p, r, x, y;
    part(load(word), load(word + 16), distance, &p, &r);
    p = _mm_xor_si128(p, r);
    r = multiply(load(coefs), r);
    if (distance == 8) {
        x = _mm_unpacklo_epi64(p, r);
        y = _mm_unpackhi_epi64(p, r);
    } else if (distance == 4) {
        x = _mm_unpacklo_epi32(p, r);
        y = _mm_unpackhi_epi32(p, r);
    } else if (distance == 2) {
        x = _mm_unpacklo_epi16(p, r);
        y = _mm_unpackhi_epi16(p, r);
    } else {
        x = _mm_unpacklo_epi8(p, r);
        y = _mm_unpackhi_epi8(p, r);
    }
    store(word, x);
    store(word + 16, y);
}

/* All kernels of one layer at distance 8, 4, 2 or 1, a constant. */
INLINE void near_layer(uint8_t *word, size_t places, int distance,
                       const uint8_t *coefs)
{
    for (size_t t = 0; t < places / 2; t += 16) {
        kernels_near(word + 2 * t, distance, coefs + t);
    }
}

/* The transform of 32 places or more, the last layer first. */
static void transform(uint8_t *word, size_t places, const uint8_t *coefs,
                      size_t n)
{
    size_t step = places / 2;
    const uint8_t *layer = coefs + (n - 1) * step;
    near_layer(word, places, 1, layer);
    near_layer(word, places, 2, layer - step);
    near_layer(word, places, 4, layer - 2 * step);
    near_layer(word, places, 8, layer - 3 * step);
    layer -= 4 * step;
    for (size_t apart = 16; apart < places; apart *= 2, layer -= step) {
        for (size_t t = 0; t < step; t += 16) {
            size_t theta = 2 * t - (t & (apart - 1));
            kernels_apart(word + theta, apart, layer + t);
        }
    }
}

/* The transform of 2 to 16 places: each block from its halves. */
static void transform_small(uint8_t *word, size_t places, const uint8_t *coefs,
                            size_t n)
{
    const uint8_t *layer = coefs + (n - 1) * (places / 2);
    for (size_t half = 1; half < places; half *= 2, layer -= places / 2) {
        for (size_t place = 0; place < places; place += 2 * half) {
            join(word + place, layer + place / 2, half);
        }
    }
}

/* Sixteen message bits of the map from a place on, or those there are. */
INLINE uint64_t message_bits(const uint8_t *map, size_t places)
{
    uint64_t bits = 0;
    if (places >= 16) {
        vec equal = _mm_cmpeq_epi8(load(map), _mm_setzero_si128());
        return (uint64_t)(uint32_t)_mm_movemask_epi8(equal);
    }
    for (size_t i = 0; i < places; i++) {
        bits |= (uint64_t)(map[i] == 0) << i;
    }
    return bits;
}

/* Put the message into its places of the word and zeros into the others. */
static void place_message(uint8_t *word, const uint8_t *map, size_t places,
                          const uint8_t *message)
{
    for (size_t first = 0; first < places; first += 16) {
        uint64_t bits = message_bits(map + first, places);
        store(word + first, _mm_setzero_si128());
        for (; bits != 0; bits &= bits - 1) {
            word[first + (size_t)__builtin_ctzll(bits)] = *message++;
        }
    }
}

/* Copy the word to the codeword. */
static void hand_out(uint8_t *codeword, const uint8_t *word, size_t places)
{
    size_t i = 0;
    for (; i + 16 <= places; i += 16) {
        store(codeword + i, load(word + i));
    }
    for (; i < places; i++) {
        codeword[i] = word[i];
    }
}

/* Encode a message of K symbols to a codeword of N. */
uint8_t blocked_encode(size_t n, const uint8_t *map, size_t map_len,
                       const uint8_t *coefs, size_t coefs_len,
                       const uint8_t *message, size_t message_len,
                       uint8_t *codeword, size_t codeword_len)
{
    if (n < 1 || n > 8) {
        return 1;
    }
    size_t places = (size_t)1 << n;
    if (map_len != places || coefs_len != n * (places / 2) ||
        codeword_len != places || message_len != count_zeros(map, places)) {
        return 2;
    }
    uint8_t refusal = code_refusal(map, places, coefs, coefs_len, message_len);
    if (refusal != 0) {
        return refusal;
    }
    if (any_bits(message, message_len) > 63) {
        return 7;
    }
    uint8_t word[MOST_PLACES];
    place_message(word, map, places, message);
    if (n >= 5) {
        transform(word, places, coefs, n);
    } else {
        transform_small(word, places, coefs, n);
    }
    hand_out(codeword, word, places);
    return 0;
}

/* --- Weighing ------------------------------------------------------------ */

/* For one base: last has all ones where chip (s + 63) mod 64 is 1.  Turns has
 * all ones where a chip differs from the one before it, laid out twice, in
 * eight copies: lane i of vector j of copy k is for chip k + 8 * j + i mod 64.
 */
struct base {
    vec turns[8][16];
    vec last[8];
};

/* Eight lanes, all ones where bits 0 to 7 are 1. */
INLINE vec spread_bits(uint64_t bits)
{
    vec each = _mm_set_epi16(128, 64, 32, 16, 8, 4, 2, 1);
    vec v = _mm_and_si128(_mm_set1_epi16((short)(bits & 255)), each);
    return _mm_cmpeq_epi16(v, each);
}

/* Lay out the base. */
static void lay_out(struct base *base, uint64_t chips)
{
    uint64_t before = chips << 1 | chips >> 63;
    uint64_t turns = chips ^ before;
    uint16_t line[72];
    for (int j = 0; j < 8; j++) {
        base->last[j] = spread_bits(before >> 8 * j);
        store(line + 8 * j, spread_bits(turns >> 8 * j));
    }
    store(line + 64, load(line));
    for (int k = 0; k < 8; k++) {
#pragma GCC unroll 8
        for (int j = 0; j < 8; j++) {
            vec v = load(line + k + 8 * j);
            base->turns[k][j] = v;
            base->turns[k][j + 8] = v;
        }
    }
}

/* The factors of the gain.  Twice a difference d of raw penalties is held at
 * `most`, twice the least d that gives the cap or more, so that p = d * top is
 * at most 31 * 255 + 254, below 2^13.  With 2^s the greatest power of 2 not
 * above bottom, factor is 2^(15 + s) / bottom rounded up, at most 2^15; its product
 * with bottom is above 2^(15 + s) by some e below bottom, below 2^(s + 1).  So
 * p * e is below 2^(15 + s), and p * factor / 2^(15 + s) rounded down is
 * p / bottom rounded down. */
struct gain {
    vec most, top, factor, shift, cap;
};

/* The factors for one call. */
static struct gain make_gain(uint32_t top, uint32_t bottom, uint32_t qc)
{
    struct gain gain;
    uint32_t cap = (1u << qc) - 1, s = 31 - (uint32_t)__builtin_clz(bottom);
    uint32_t least = (cap * bottom + top - 1) / top;
    uint32_t factor = ((1u << (15 + s)) + bottom - 1) / bottom;
    gain.most = _mm_set1_epi16((short)(2 * least));
    gain.top = _mm_set1_epi16((short)top);
    gain.factor = _mm_set1_epi16((short)factor);
    gain.shift = _mm_cvtsi32_si128((int)s);
    gain.cap = _mm_set1_epi16((short)cap);
    return gain;
}

/* One sample for all 64 sums: each sum changes its sign where the chip of its
 * symbol differs from that at the sample before, then the sample is added. */
INLINE void add_sample(vec *sums, const vec *turns, int copy, vec sample)
{
#pragma GCC unroll 8
    for (int i = 0; i < 8; i++) {
        sums[i] = _mm_xor_si128(sums[i], turns[16 * copy + i]);
        sums[i] = _mm_add_epi16(sums[i], sample);
    }
}

/* The 64 sums of the samples of one symbol, each sample counted positive where
 * the chip of s is 0 and negative where it is 1, and a lost sample, -128, as
 * 0.  A sum stands for itself plus one half, so that turning all its bits
 * changes the sign. */
INLINE void correlate(vec *sums, const struct base *base, const int8_t *samples)
{
#pragma GCC unroll 8
    for (int i = 0; i < 8; i++) {
        sums[i] = base->last[i];
    }
    const vec *turns = base->turns[0];
    const vec lost = _mm_set1_epi8(-128);
#pragma GCC unroll 1
    for (int g = 0; g < 8; g++, samples += 8, turns++) {
        vec v = _mm_loadl_epi64((const vec *)samples);
        v = _mm_andnot_si128(_mm_cmpeq_epi8(v, lost), v);
        v = _mm_srai_epi16(_mm_unpacklo_epi8(v, v), 8);
        vec low = _mm_unpacklo_epi16(v, v), high = _mm_unpackhi_epi16(v, v);
        add_sample(sums, turns, 0, _mm_shuffle_epi32(low, 0x00));
        add_sample(sums, turns, 1, _mm_shuffle_epi32(low, 0x55));
        add_sample(sums, turns, 2, _mm_shuffle_epi32(low, 0xAA));
        add_sample(sums, turns, 3, _mm_shuffle_epi32(low, 0xFF));
        add_sample(sums, turns, 4, _mm_shuffle_epi32(high, 0x00));
        add_sample(sums, turns, 5, _mm_shuffle_epi32(high, 0x55));
        add_sample(sums, turns, 6, _mm_shuffle_epi32(high, 0xAA));
        add_sample(sums, turns, 7, _mm_shuffle_epi32(high, 0xFF));
    }
#pragma GCC unroll 8
    for (int i = 0; i < 8; i++) {
        sums[i] = _mm_xor_si128(sums[i], base->last[i]);
    }
}

/* The 64 penalties of one symbol.  A sum is the total of all magnitudes less
 * twice the raw penalty, so the greatest sum less a sum is twice what the raw
 * penalty exceeds the least by. */
INLINE void weigh(uint16_t *out, const struct base *base,
                  const struct gain *gain, const int8_t *samples)
{
    vec sums[8], greatest;
    correlate(sums, base, samples);
    greatest = sums[0];
#pragma GCC unroll 8
    for (int i = 1; i < 8; i++) {
        greatest = _mm_max_epi16(greatest, sums[i]);
    }
    greatest = greatest_lane(greatest);
#pragma GCC unroll 8
    for (int i = 0; i < 8; i++) {
        vec v = _mm_min_epi16(_mm_sub_epi16(greatest, sums[i]), gain->most);
        v = _mm_mulhi_epu16(_mm_mullo_epi16(v, gain->top), gain->factor);
        v = _mm_srl_epi16(v, gain->shift);
        store(out + 8 * i, _mm_min_epi16(v, gain->cap));
    }
}

/* Weigh samples into penalties. */
uint8_t blocked_demap(uint64_t base, const int8_t *samples, size_t samples_len,
                      uint32_t top, uint32_t bottom, uint32_t qc,
                      uint16_t *llrs, size_t llrs_len)
{
    size_t count = samples_len / 64;
    if (samples_len % 64 != 0 || count < 1 || count > 256 ||
        llrs_len != samples_len) {
        return 2;
    }
    if (qc < 1 || qc > 5) {
        return 3;
    }
    if (base >> 32 == (base & 0xFFFFFFFF)) {
        return 10;
    }
    if (top < 1 || top > 255 || bottom < 1 || bottom > 255) {
        return 11;
    }
    struct base layout;
    struct gain gain = make_gain(top, bottom, qc);
    lay_out(&layout, base);
    for (size_t i = 0; i < count; i++) {
        weigh(llrs + 64 * i, &layout, &gain, samples + 64 * i);
    }
    return 0;
}
