/*
 * Cikenuma: sealed rate lookups.
 *
 * A broker encrypts what an applicant answered, an evaluator without the key works it through a
 * rate table, and the broker decrypts a rate class. The scheme is levelled TFHE over 32-bit torus
 * words. This header declares the broker's side, encrypting and decrypting classes and encrypting
 * selector bits, and what needs no key: lookups in a table, which is public or hidden and has two
 * packings, the external product and the CMux ("gate") that they are made of, and extracting one
 * coefficient of a packed sample. It can be included from C and from C++.
 *
 * Masks and errors must come from the caller's own source of randomness: the library draws none.
 * It makes no claim about secrecy, and chooses no parameters.
 *
 *
 * TERMS
 *
 * Word            an integer from 0 to 2^32 - 1; sums and products are taken modulo 2^32. Its centred
 *                 reading is w below 2^31, else w - 2^32; its magnitude is the absolute value of that,
 *                 up to 2^31. No word is special.
 * Polynomial      N words, constant coefficient first. Products are taken modulo X^N + 1: a term that
 *                 passes the end returns with its sign changed.
 * Key             a polynomial K whose words are 0 or 1.
 * Weight          of a key: how many of its words are 1. A call that has a charge (below) takes W, by
 *                 which the caller declares that the key of its blocks has at most W ones. W is at
 *                 most N, and to declare N is always safe, since a key has N words. A smaller W makes
 *                 the charge smaller and does nothing else: what an accepted call writes, and its
 *                 gates, don't depend on it. No call compares W with a key, since none that takes W
 *                 sees one. If the key has more ones than W, the reported bound says nothing: noise
 *                 may be above it, and what is accepted may decrypt to a wrong class with no sign of
 *                 it.
 * Packed sample   a TRLWE sample: a mask polynomial a, then a body polynomial b; 2*N words. Its phase
 *                 is the polynomial b - a*K.
 * Scalar sample   an LWE sample: N mask words, then one body word; N + 1 words. Its phase is the body
 *                 word less the sum of mask word j times key word j.
 * Class           one of M, numbered from 0. Class c is encoded as the word c*(2^32/M). A phase word f
 *                 decodes to floor(((f + 2^31/M) mod 2^32) / (2^32/M)), so ties go up.
 * Message         of a packed sample: the encoded classes in coefficients 0 to s - 1, and 0 in the
 *                 others.
 * Noise bound     no coefficient of the phase is farther than this from the message. While it is
 *                 below 2^31/M every class decodes to itself. The distance of two words is the
 *                 magnitude of their difference.
 * Gadget          the base 2^g and the number L of digits, with g*L at most 32. Its steps are
 *                 h_j = 2^(32 - g*j), for j from 1 to L.
 * Digits          of a word: it is rounded to the nearest multiple of h_L, ties up, and written as the
 *                 sum of digit_j * h_j modulo 2^32, every digit from -2^(g-1) to 2^(g-1) - 1. They are
 *                 unique. Rounding moves a word by at most E = 2^(31 - g*L), or 0 if g*L is 32.
 * Block           a selector block, a TRGSW sample: 2*L packed samples as rows, 4*L*N words. It holds
 *                 the bit m within A if no coefficient of any row's phase is farther than A from what
 *                 it should be: -m*h_j*K for row j (j = 1 to L), and m*h_j for row L + j.
 * Amplitude       what the caller declares of a block or a sample: the block holds its bit within it,
 *                 or it is the sample's noise bound. Only its size is tested.
 * Charge          what an external product or a CMux adds to the noise, with a block of amplitude A
 *                 under a key of at most W ones: 2*L*N*2^(g-1)*A + (1 + W)*E.
 * Table           2^d entries of s classes each, in the order of their numbers, all classes of an entry
 *                 side by side. The selectors name the entry whose number has the bit of selector i
 *                 as its binary digit i, digit 0 the lowest. The exact encoding of an entry is the
 *                 message that holds its classes.
 * Hidden table    a table that is lent encrypted: packed samples in place of classes, each with its
 *                 amplitude. cikenuma_encrypt_classes makes them, and the bound that it reports is the
 *                 sample's amplitude. The key is that of whoever decrypts what is looked up, the same
 *                 that the blocks are under; no call can tell whether it is. Encrypting takes this very
 *                 key: so whoever makes the table can decrypt as well, and whoever decrypts can read
 *                 the table. Who looks up has no key. A public table can be lent as a hidden one, as
 *                 samples with mask 0, the message as body and amplitude 0: the call answers and
 *                 writes what the public one does.
 * Rotation        by q places, q from 0 to N - 1: a polynomial times X^(-q). In place t comes
 *                 coefficient t + q or, where that passes the end, coefficient t + q - N with its sign
 *                 changed. A packed sample is rotated by rotating its mask and its body.
 *
 *
 * CONVENTIONS
 *
 * Numbers are passed by value, 64 bits wide. They are judged at their full width and never cut.
 *
 * A slice is passed as a pointer and a length in bytes. It holds words of four bytes each, lowest
 * byte first, and needs no alignment. Below, lengths are given in words; the length passed must be
 * exactly four times that, in bytes. A shorter or longer one is refused, also for a slice that is
 * to be written.
 *
 * A pointer is never NULL, also where its length is 0: the address of any object serves there, and
 * nothing is read or written. A slice that a call writes overlaps no other slice lent to that call.
 * The library tests neither, and takes both as given.
 *
 * Each call returns one of the numbers below. It checks what applies to it in the order 1, 2, 12, 3, 4,
 * 5, 6, 7, 8, 9, so with several faults the one that stands first there is returned. A refusal (any
 * number but 0) writes nothing.
 *
 * Each call has two sisters, NAME_bound and NAME_gates. They take the same arguments, write nothing,
 * and return the noise bound and the number of gates that the call reports: gates are 0 in every
 * refusal, and the bound is 0 in every refusal but 9.
 *
 * No call, and no sister, uses more than 64 KiB of stack.
 *
 *
 * RETURNED NUMBERS, in the order of the checks
 *
 *   number   bound        when
 *   ------   ----------   ----------------------------------------------------------------
 *     0      as defined   accepted
 *     1      0            N is not a power of two from 1 to 1,024
 *     2      0            g is not 1 to 16, L is 0, or g*L is above 32
 *    12      0            W is above N
 *     3      0            M is not a power of two from 2 to 65,536
 *     4      0            s is 0 or above N; position p is not below N; d is above 10; but in the
 *                         vertical packing: s is not 1, or d is above 16
 *     5      0            the length of a slice differs from the exact one
 *     6      0            a declared amplitude is above 2^31
 *     7      0            a class is not below M, or a selector bit is above 1
 *     8      0            a key word is above 1
 *     9      the bound    the bound is 2^31/M or more
 */
#ifndef CIKENUMA_H
#define CIKENUMA_H

#include <stddef.h>
#include <stdint.h>

#ifdef __cplusplus
extern "C" {
#endif

/*
 * Encrypts s classes as a packed sample.
 *
 *   N         degree
 *   M         number of classes
 *   s         how many classes the sample carries, 1 to N
 *   key       N words, each 0 or 1
 *   mask      N words
 *   errors    N words, the noise of every coefficient, used or not, by its centred reading
 *   classes   s words, each below M
 *   sample    2*N words, written: the mask, then the body b = mask*key + errors + message
 *
 * Refusals, in order: 1, 3, 4, 5, 7, 8, 9.
 * Bound: the greatest magnitude of all N errors. From 2^31/M on the call refuses with 9, and the
 * bound is still reported.
 * Gates: 0.
 */
uint32_t cikenuma_encrypt_classes(uint64_t N, uint64_t M, uint64_t s,
                                  const uint8_t *key, size_t key_length,
                                  const uint8_t *mask, size_t mask_length,
                                  const uint8_t *errors, size_t errors_length,
                                  const uint8_t *classes, size_t classes_length,
                                  uint8_t *sample, size_t sample_length);

uint64_t cikenuma_encrypt_classes_bound(uint64_t N, uint64_t M, uint64_t s,
                                        const uint8_t *key, size_t key_length,
                                        const uint8_t *mask, size_t mask_length,
                                        const uint8_t *errors, size_t errors_length,
                                        const uint8_t *classes, size_t classes_length,
                                        const uint8_t *sample, size_t sample_length);

uint64_t cikenuma_encrypt_classes_gates(uint64_t N, uint64_t M, uint64_t s,
                                        const uint8_t *key, size_t key_length,
                                        const uint8_t *mask, size_t mask_length,
                                        const uint8_t *errors, size_t errors_length,
                                        const uint8_t *classes, size_t classes_length,
                                        const uint8_t *sample, size_t sample_length);

/*
 * Decrypts the s classes of a packed sample.
 *
 *   N         degree
 *   M         number of classes
 *   s         how many classes the sample carries, 1 to N
 *   key       N words, each 0 or 1
 *   sample    2*N words
 *   classes   s words, written: what coefficients 0 to s - 1 of the phase decode to
 *
 * Refusals, in order: 1, 3, 4, 5, 8.
 * Bound: 0. Gates: 0.
 */
uint32_t cikenuma_decrypt_classes(uint64_t N, uint64_t M, uint64_t s,
                                  const uint8_t *key, size_t key_length,
                                  const uint8_t *sample, size_t sample_length,
                                  uint8_t *classes, size_t classes_length);

uint64_t cikenuma_decrypt_classes_bound(uint64_t N, uint64_t M, uint64_t s,
                                        const uint8_t *key, size_t key_length,
                                        const uint8_t *sample, size_t sample_length,
                                        const uint8_t *classes, size_t classes_length);

uint64_t cikenuma_decrypt_classes_gates(uint64_t N, uint64_t M, uint64_t s,
                                        const uint8_t *key, size_t key_length,
                                        const uint8_t *sample, size_t sample_length,
                                        const uint8_t *classes, size_t classes_length);

/*
 * Decrypts the class of a scalar sample.
 *
 *   N            degree
 *   M            number of classes
 *   key          N words, each 0 or 1
 *   scalar       N + 1 words
 *   class_word   1 word, written: what the phase decodes to
 *
 * Refusals, in order: 1, 3, 5, 8.
 * Bound: 0. Gates: 0.
 */
uint32_t cikenuma_decrypt_scalar(uint64_t N, uint64_t M,
                                 const uint8_t *key, size_t key_length,
                                 const uint8_t *scalar, size_t scalar_length,
                                 uint8_t *class_word, size_t class_word_length);

uint64_t cikenuma_decrypt_scalar_bound(uint64_t N, uint64_t M,
                                       const uint8_t *key, size_t key_length,
                                       const uint8_t *scalar, size_t scalar_length,
                                       const uint8_t *class_word, size_t class_word_length);

uint64_t cikenuma_decrypt_scalar_gates(uint64_t N, uint64_t M,
                                       const uint8_t *key, size_t key_length,
                                       const uint8_t *scalar, size_t scalar_length,
                                       const uint8_t *class_word, size_t class_word_length);

/*
 * Extracts coefficient p of a packed sample as a scalar sample. Its phase is coefficient p of the
 * packed sample's phase, under the same key.
 *
 *   N        degree
 *   p        position, 0 to N - 1
 *   sample   2*N words: mask a, body b
 *   scalar   N + 1 words, written: mask word j is a_(p-j) for j up to p, else -a_(N+p-j); then b_p
 *
 * Refusals, in order: 1, 4, 5.
 * Bound: 0. Gates: 0.
 */
uint32_t cikenuma_extract(uint64_t N, uint64_t p,
                          const uint8_t *sample, size_t sample_length,
                          uint8_t *scalar, size_t scalar_length);

uint64_t cikenuma_extract_bound(uint64_t N, uint64_t p,
                                const uint8_t *sample, size_t sample_length,
                                const uint8_t *scalar, size_t scalar_length);

uint64_t cikenuma_extract_gates(uint64_t N, uint64_t p,
                                const uint8_t *sample, size_t sample_length,
                                const uint8_t *scalar, size_t scalar_length);

/*
 * Encrypts a selector bit as a block.
 *
 *   N        degree
 *   g        the gadget's base is 2^g
 *   L        how many digits the gadget has
 *   bit      the bit m, 0 or 1
 *   key      N words, each 0 or 1
 *   masks    2*L*N words, a mask polynomial for each row
 *   errors   2*L*N words, the noise of every row, by its centred reading
 *   block    4*L*N words, written: 2*L rows, each a mask, then a body. Row r starts as an encryption
 *            of 0, its mask the lent one and its body mask*key + errors. Then m*h_j is added to the
 *            constant coefficient: of the mask in row j (j = 1 to L), of the body in row L + j.
 *
 * Refusals, in order: 1, 2, 5, 7, 8.
 * Bound: the greatest magnitude of all 2*L*N errors: the block holds the bit within it. It can be any
 * magnitude; there is no limit.
 * Gates: 0.
 */
uint32_t cikenuma_encrypt_selector(uint64_t N, uint64_t g, uint64_t L, uint64_t bit,
                                   const uint8_t *key, size_t key_length,
                                   const uint8_t *masks, size_t masks_length,
                                   const uint8_t *errors, size_t errors_length,
                                   uint8_t *block, size_t block_length);

uint64_t cikenuma_encrypt_selector_bound(uint64_t N, uint64_t g, uint64_t L, uint64_t bit,
                                         const uint8_t *key, size_t key_length,
                                         const uint8_t *masks, size_t masks_length,
                                         const uint8_t *errors, size_t errors_length,
                                         const uint8_t *block, size_t block_length);

uint64_t cikenuma_encrypt_selector_gates(uint64_t N, uint64_t g, uint64_t L, uint64_t bit,
                                         const uint8_t *key, size_t key_length,
                                         const uint8_t *masks, size_t masks_length,
                                         const uint8_t *errors, size_t errors_length,
                                         const uint8_t *block, size_t block_length);

/*
 * The external product of a block with a packed sample: it holds the bit times the sample's message.
 *
 *   N                  degree
 *   g                  the gadget's base is 2^g
 *   L                  how many digits the gadget has
 *   W                  how many ones the key has at most, 0 to N
 *   amplitude          of the block, at most 2^31
 *   sample_amplitude   of the sample, at most 2^31
 *   block              4*L*N words
 *   sample             2*N words
 *   out                2*N words, written: the sum over the rows of digit polynomial times row. Digits
 *                      1 to L of the mask go with rows 1 to L, those of the body with the last L.
 *
 * Refusals, in order: 1, 2, 12, 5, 6.
 * Bound: the charge plus sample_amplitude. If both amplitudes hold under a key of at most W ones, no
 * coefficient of out's phase is farther than this from the bit times the sample's message. There is no
 * limit: compare it with 2^31/M before you decrypt.
 * Gates: 0.
 */
uint32_t cikenuma_external_product(uint64_t N, uint64_t g, uint64_t L, uint64_t W,
                                   uint64_t amplitude, uint64_t sample_amplitude,
                                   const uint8_t *block, size_t block_length,
                                   const uint8_t *sample, size_t sample_length,
                                   uint8_t *out, size_t out_length);

uint64_t cikenuma_external_product_bound(uint64_t N, uint64_t g, uint64_t L, uint64_t W,
                                         uint64_t amplitude, uint64_t sample_amplitude,
                                         const uint8_t *block, size_t block_length,
                                         const uint8_t *sample, size_t sample_length,
                                         const uint8_t *out, size_t out_length);

uint64_t cikenuma_external_product_gates(uint64_t N, uint64_t g, uint64_t L, uint64_t W,
                                         uint64_t amplitude, uint64_t sample_amplitude,
                                         const uint8_t *block, size_t block_length,
                                         const uint8_t *sample, size_t sample_length,
                                         const uint8_t *out, size_t out_length);

/*
 * The CMux, or gate: picks sample0 if the block's bit is 0, and sample1 if it is 1.
 *
 *   N            degree
 *   g            the gadget's base is 2^g
 *   L            how many digits the gadget has
 *   W            how many ones the key has at most, 0 to N
 *   amplitude    of the block, at most 2^31
 *   amplitude0   of sample0, at most 2^31
 *   amplitude1   of sample1, at most 2^31
 *   block        4*L*N words
 *   sample0      2*N words
 *   sample1      2*N words
 *   out          2*N words, written: sample0 plus the external product of the block with
 *                sample1 - sample0
 *
 * Refusals, in order: 1, 2, 12, 5, 6.
 * Bound: the greater of amplitude0 and amplitude1, plus the charge. If all three amplitudes hold under
 * a key of at most W ones, no coefficient of out's phase is farther than this from the picked sample's
 * message. There is no limit: compare it with 2^31/M before you decrypt.
 * Gates: 1.
 */
uint32_t cikenuma_cmux(uint64_t N, uint64_t g, uint64_t L, uint64_t W,
                       uint64_t amplitude, uint64_t amplitude0, uint64_t amplitude1,
                       const uint8_t *block, size_t block_length,
                       const uint8_t *sample0, size_t sample0_length,
                       const uint8_t *sample1, size_t sample1_length,
                       uint8_t *out, size_t out_length);

uint64_t cikenuma_cmux_bound(uint64_t N, uint64_t g, uint64_t L, uint64_t W,
                             uint64_t amplitude, uint64_t amplitude0, uint64_t amplitude1,
                             const uint8_t *block, size_t block_length,
                             const uint8_t *sample0, size_t sample0_length,
                             const uint8_t *sample1, size_t sample1_length,
                             const uint8_t *out, size_t out_length);

uint64_t cikenuma_cmux_gates(uint64_t N, uint64_t g, uint64_t L, uint64_t W,
                             uint64_t amplitude, uint64_t amplitude0, uint64_t amplitude1,
                             const uint8_t *block, size_t block_length,
                             const uint8_t *sample0, size_t sample0_length,
                             const uint8_t *sample1, size_t sample1_length,
                             const uint8_t *out, size_t out_length);

/*
 * Looks an entry up in a public table by d selectors, without the key.
 *
 *   N            degree
 *   g            the gadget's base is 2^g
 *   L            how many digits the gadget has
 *   W            how many ones the key has at most, 0 to N
 *   M            number of classes
 *   s            how many classes an entry has, 1 to N
 *   d            how many selectors, 0 to 10
 *   blocks       d*4*L*N words, the selectors' blocks, selector 0 first
 *   amplitudes   d words, that of each block, at most 2^31
 *   classes      s*2^d words, the table: the s classes of entry 0, then those of entry 1, and so on,
 *                each below M
 *   sample       2*N words, written: the packed sample that the tree of CMuxes makes. Every entry begins
 *                as a packed sample with mask 0 and its exact encoding as body. Selector 0 joins
 *                entries 2t and 2t + 1 by a CMux, selector 1 joins those results, and so on to the
 *                last selector, whose one result is written. With d = 0 it is entry 0 itself.
 *   work         2*N*(d + 1) words, room for the tree: what it holds before is of no account, and
 *                afterwards all of it is 0
 *
 * Refusals, in order: 1, 2, 12, 3, 4, 5, 6, 7, 9. With d = 0 all arguments are tested as with any other
 * d; blocks and amplitudes then have length 0.
 * Bound: the sum of the d charges, a selector's charge going by its amplitude; 0 if d is 0. From 2^31/M
 * on the call refuses with 9, before anything is written, and the whole sum is still reported.
 * What it means: if the call returns 0, and each block holds its bit within its amplitude under a key
 * of 0s and 1s with at most W ones, then no coefficient of the sample's phase under that key, of all N,
 * is farther than the bound from the exact encoding of the entry that the bits name. And
 * cikenuma_decrypt_classes with the same N, M and s and that key gives this entry's classes.
 * Gates: 2^d - 1.
 */
uint32_t cikenuma_lookup(uint64_t N, uint64_t g, uint64_t L, uint64_t W,
                         uint64_t M, uint64_t s, uint64_t d,
                         const uint8_t *blocks, size_t blocks_length,
                         const uint8_t *amplitudes, size_t amplitudes_length,
                         const uint8_t *classes, size_t classes_length,
                         uint8_t *sample, size_t sample_length,
                         uint8_t *work, size_t work_length);

uint64_t cikenuma_lookup_bound(uint64_t N, uint64_t g, uint64_t L, uint64_t W,
                               uint64_t M, uint64_t s, uint64_t d,
                               const uint8_t *blocks, size_t blocks_length,
                               const uint8_t *amplitudes, size_t amplitudes_length,
                               const uint8_t *classes, size_t classes_length,
                               const uint8_t *sample, size_t sample_length,
                               const uint8_t *work, size_t work_length);

uint64_t cikenuma_lookup_gates(uint64_t N, uint64_t g, uint64_t L, uint64_t W,
                               uint64_t M, uint64_t s, uint64_t d,
                               const uint8_t *blocks, size_t blocks_length,
                               const uint8_t *amplitudes, size_t amplitudes_length,
                               const uint8_t *classes, size_t classes_length,
                               const uint8_t *sample, size_t sample_length,
                               const uint8_t *work, size_t work_length);

/*
 * Looks a class up in a public table of single classes by d selectors, without the key. The table is
 * packed vertically: consecutive classes fill the coefficients of a sample, so a table longer than N
 * has 2^d/N samples, where cikenuma_lookup makes a sample of each entry.
 *
 * N is 2^v. Selectors 0 to r - 1, with r the lesser of v and d, rotate a sample; selectors r to d - 1
 * pick it. The table has 2^(d-r) samples:
 *
 *   coefficient         0             1         ...       2^r - 1       2^r to N - 1
 *   sample 0         class 0       class 1      ...    class 2^r - 1         0
 *   sample 1        class 2^r   class 2^r + 1   ...   class 2*2^r - 1        0
 *   and so on
 *
 *   N            degree
 *   g            the gadget's base is 2^g
 *   L            how many digits the gadget has
 *   W            how many ones the key has at most, 0 to N
 *   M            number of classes
 *   s            how many classes an entry has, which is 1
 *   d            how many selectors, 0 to 16
 *   blocks       d*4*L*N words, the selectors' blocks, selector 0 first
 *   amplitudes   d words, that of each block, at most 2^31
 *   classes      2^d words, the table: the class of entry 0, then that of entry 1, and so on, each
 *                below M
 *   sample       2*N words, written: the packed sample that the CMuxes make, with the class in
 *                coefficient 0. Every sample of the table begins with mask 0 and the encoded classes
 *                above as body. Selector r joins samples 2t and 2t + 1 by a CMux, selector r + 1 joins
 *                those results, and so on to the last selector, whose one result is x. Then, for i
 *                from 0 to r - 1, selector i picks by a CMux between x and x rotated by 2^i places,
 *                and what it picks is the next x. The last x is written. With d = 0 it is sample 0.
 *   work         2*N*(d + 1) words, room for the CMuxes: what it holds before is of no account, and
 *                afterwards all of it is 0
 *
 * Refusals, in order: 1, 2, 12, 3, 4, 5, 6, 7, 9. With d = 0 all arguments are tested as with any other
 * d; blocks and amplitudes then have length 0.
 * Bound: the sum of the d charges, a selector's charge going by its amplitude; 0 if d is 0. From 2^31/M
 * on the call refuses with 9, before anything is written, and the whole sum is still reported.
 * What it means: if the call returns 0, and each block holds its bit within its amplitude under a key
 * of 0s and 1s with at most W ones, then coefficient 0 of the sample's phase under that key is no
 * farther than the bound from the encoded class of the entry that the bits name. And
 * cikenuma_decrypt_classes with the same N and M, with s = 1 and that key gives this class. Of the other
 * coefficients nothing is said.
 * Gates: 2^(d-r) - 1 + r.
 */
uint32_t cikenuma_lookup_vertical(uint64_t N, uint64_t g, uint64_t L, uint64_t W,
                                  uint64_t M, uint64_t s, uint64_t d,
                                  const uint8_t *blocks, size_t blocks_length,
                                  const uint8_t *amplitudes, size_t amplitudes_length,
                                  const uint8_t *classes, size_t classes_length,
                                  uint8_t *sample, size_t sample_length,
                                  uint8_t *work, size_t work_length);

uint64_t cikenuma_lookup_vertical_bound(uint64_t N, uint64_t g, uint64_t L, uint64_t W,
                                        uint64_t M, uint64_t s, uint64_t d,
                                        const uint8_t *blocks, size_t blocks_length,
                                        const uint8_t *amplitudes, size_t amplitudes_length,
                                        const uint8_t *classes, size_t classes_length,
                                        const uint8_t *sample, size_t sample_length,
                                        const uint8_t *work, size_t work_length);

uint64_t cikenuma_lookup_vertical_gates(uint64_t N, uint64_t g, uint64_t L, uint64_t W,
                                        uint64_t M, uint64_t s, uint64_t d,
                                        const uint8_t *blocks, size_t blocks_length,
                                        const uint8_t *amplitudes, size_t amplitudes_length,
                                        const uint8_t *classes, size_t classes_length,
                                        const uint8_t *sample, size_t sample_length,
                                        const uint8_t *work, size_t work_length);

/*
 * Looks an entry up in a hidden table by d selectors, without the key. The table is packed as that of
 * cikenuma_lookup: each entry is a sample.
 *
 * How the table is made: for each entry, whoever has the key calls cikenuma_encrypt_classes with the
 * same N, M and s, this key, and the entry's s classes. What that call writes is the entry's sample,
 * and the bound that it reports is the sample's amplitude.
 *
 *   N            degree
 *   g            the gadget's base is 2^g
 *   L            how many digits the gadget has
 *   W            how many ones the key has at most, 0 to N
 *   M            number of classes
 *   s            how many classes an entry has, 1 to N: the samples don't show it
 *   d            how many selectors, 0 to 10
 *   blocks       d*4*L*N words, the selectors' blocks, selector 0 first
 *   amplitudes   d words, that of each block, at most 2^31
 *   samples      2*N*2^d words, the table: the packed sample of entry 0, then that of entry 1, and so on
 *   sample_amplitudes
 *                2^d words, that of each sample, at most 2^31
 *   sample       2*N words, written: the packed sample that the tree of CMuxes of cikenuma_lookup makes,
 *                every entry beginning as its lent sample. With d = 0 it is sample 0, word for word.
 *   work         2*N*(d + 1) words, room for the tree: what it holds before is of no account, and
 *                afterwards all of it is 0
 *
 * Refusals, in order: 1, 2, 12, 3, 4, 5, 6, 9; 6 goes by both slices of amplitudes. With d = 0 all
 * arguments are tested as with any other d; blocks and amplitudes then have length 0.
 * Bound: the greatest amplitude of all samples plus the sum of the d charges, a selector's charge going
 * by its amplitude; the sample's amplitude alone if d is 0. From 2^31/M on the call refuses with 9, also
 * with d = 0, before anything is written, and the whole bound is still reported.
 * What it means: if the call returns 0, and under a key of 0s and 1s with at most W ones each block
 * holds its bit within its amplitude, and no coefficient of any sample's phase, of all N, is farther
 * than the sample's amplitude from the exact encoding of its entry, then no coefficient of the written
 * sample's phase under that key is farther than the bound from the exact encoding of the entry that the
 * bits name. And cikenuma_decrypt_classes with the same N, M and s and that key gives this entry's
 * classes.
 * Gates: 2^d - 1.
 */
uint32_t cikenuma_lookup_hidden(uint64_t N, uint64_t g, uint64_t L, uint64_t W,
                                uint64_t M, uint64_t s, uint64_t d,
                                const uint8_t *blocks, size_t blocks_length,
                                const uint8_t *amplitudes, size_t amplitudes_length,
                                const uint8_t *samples, size_t samples_length,
                                const uint8_t *sample_amplitudes, size_t sample_amplitudes_length,
                                uint8_t *sample, size_t sample_length,
                                uint8_t *work, size_t work_length);

uint64_t cikenuma_lookup_hidden_bound(uint64_t N, uint64_t g, uint64_t L, uint64_t W,
                                      uint64_t M, uint64_t s, uint64_t d,
                                      const uint8_t *blocks, size_t blocks_length,
                                      const uint8_t *amplitudes, size_t amplitudes_length,
                                      const uint8_t *samples, size_t samples_length,
                                      const uint8_t *sample_amplitudes, size_t sample_amplitudes_length,
                                      const uint8_t *sample, size_t sample_length,
                                      const uint8_t *work, size_t work_length);

uint64_t cikenuma_lookup_hidden_gates(uint64_t N, uint64_t g, uint64_t L, uint64_t W,
                                      uint64_t M, uint64_t s, uint64_t d,
                                      const uint8_t *blocks, size_t blocks_length,
                                      const uint8_t *amplitudes, size_t amplitudes_length,
                                      const uint8_t *samples, size_t samples_length,
                                      const uint8_t *sample_amplitudes, size_t sample_amplitudes_length,
                                      const uint8_t *sample, size_t sample_length,
                                      const uint8_t *work, size_t work_length);

/*
 * Looks a class up in a hidden table of single classes by d selectors, without the key. The table is
 * packed as that of cikenuma_lookup_vertical: 2^(d-r) samples, each with the classes of 2^r consecutive
 * entries. N is 2^v, and r is the lesser of v and d.
 *
 * How the table is made: for each sample, whoever has the key calls cikenuma_encrypt_classes with the
 * same N and M, with s = 2^r, this key, and the sample's 2^r classes. What that call writes is the
 * sample, and the bound that it reports is its amplitude.
 *
 *   N            degree
 *   g            the gadget's base is 2^g
 *   L            how many digits the gadget has
 *   W            how many ones the key has at most, 0 to N
 *   M            number of classes
 *   s            how many classes an entry has, which is 1
 *   d            how many selectors, 0 to 16
 *   blocks       d*4*L*N words, the selectors' blocks, selector 0 first
 *   amplitudes   d words, that of each block, at most 2^31
 *   samples      2*N*2^(d-r) words, the table: its packed samples, sample 0 first
 *   sample_amplitudes
 *                2^(d-r) words, that of each sample, at most 2^31
 *   sample       2*N words, written: the packed sample that the CMuxes of cikenuma_lookup_vertical make,
 *                every sample of the table beginning as it is lent. With d = 0 it is sample 0, word for
 *                word.
 *   work         2*N*(d + 1) words, room for the CMuxes: what it holds before is of no account, and
 *                afterwards all of it is 0
 *
 * Refusals, in order: 1, 2, 12, 3, 4, 5, 6, 9; 6 goes by both slices of amplitudes. With d = 0 all
 * arguments are tested as with any other d; blocks and amplitudes then have length 0.
 * Bound: the greatest amplitude of all samples plus the sum of the d charges, a selector's charge going
 * by its amplitude; the sample's amplitude alone if d is 0. From 2^31/M on the call refuses with 9, also
 * with d = 0, before anything is written, and the whole bound is still reported.
 * What it means: if the call returns 0, and under a key of 0s and 1s with at most W ones each block
 * holds its bit within its amplitude, and no coefficient of any sample's phase, of all N, is farther
 * than the sample's amplitude from the message that holds its classes, then coefficient 0 of the written
 * sample's phase under that key is no farther than the bound from the encoded class of the entry that
 * the bits name. And cikenuma_decrypt_classes with the same N and M, with s = 1 and that key gives this
 * class. Of the other coefficients nothing is said.
 * Gates: 2^(d-r) - 1 + r.
 */
uint32_t cikenuma_lookup_hidden_vertical(uint64_t N, uint64_t g, uint64_t L, uint64_t W,
                                         uint64_t M, uint64_t s, uint64_t d,
                                         const uint8_t *blocks, size_t blocks_length,
                                         const uint8_t *amplitudes, size_t amplitudes_length,
                                         const uint8_t *samples, size_t samples_length,
                                         const uint8_t *sample_amplitudes,
                                         size_t sample_amplitudes_length,
                                         uint8_t *sample, size_t sample_length,
                                         uint8_t *work, size_t work_length);

uint64_t cikenuma_lookup_hidden_vertical_bound(uint64_t N, uint64_t g, uint64_t L, uint64_t W,
                                               uint64_t M, uint64_t s, uint64_t d,
                                               const uint8_t *blocks, size_t blocks_length,
                                               const uint8_t *amplitudes, size_t amplitudes_length,
                                               const uint8_t *samples, size_t samples_length,
                                               const uint8_t *sample_amplitudes,
                                               size_t sample_amplitudes_length,
                                               const uint8_t *sample, size_t sample_length,
                                               const uint8_t *work, size_t work_length);

uint64_t cikenuma_lookup_hidden_vertical_gates(uint64_t N, uint64_t g, uint64_t L, uint64_t W,
                                               uint64_t M, uint64_t s, uint64_t d,
                                               const uint8_t *blocks, size_t blocks_length,
                                               const uint8_t *amplitudes, size_t amplitudes_length,
                                               const uint8_t *samples, size_t samples_length,
                                               const uint8_t *sample_amplitudes,
                                               size_t sample_amplitudes_length,
                                               const uint8_t *sample, size_t sample_length,
                                               const uint8_t *work, size_t work_length);

#ifdef __cplusplus
}
#endif

#endif
