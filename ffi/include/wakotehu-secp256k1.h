/*
 * Which signatures are valid, by libsecp256k1: for chainstates that are opened by wakotehu_open_by_need, and for scripts
 * by themselves. It is a library of its own over libwakotehu, which so needs none but C's.
 */
#ifndef WAKOTEHU_SECP256K1_H
#define WAKOTEHU_SECP256K1_H

#include <wakotehu.h>

#ifdef __cplusplus
extern "C" {
#endif

/* Says of `count` lines, as wakotehu_want_lines writes them, whether the signature is valid, as Bitcoin Core tests it: a
 * byte of 1 or 0 for each. Empty lines are none. A signature is read leniently, since whether BIP 66 refuses it is a rule
 * of scripts; and it counts as the one with the lower number.
 *
 * threads: how many threads test at most, the caller's among them; each has 4 lines at least. Where one can't be
 * started, the others do its work. The caller waits only for threads that began with a line. One that begins later ends
 * at once, and reads nothing that the caller gave. They let no signals in.
 *
 * WAKOTEHU_NULL where a pointer is null, unless there is nothing to read or to write; WAKOTEHU_BAD_TABLE where a line
 * can't be read; WAKOTEHU_MISMATCH where there is another number of them. Then nothing is written. Where there is no
 * memory, one thread does all. It may be called by any threads at once. */
wakotehu_code wakotehu_secp256k1_verdicts(const char *lines, size_t length, size_t threads, uint8_t *valid,
                                          size_t count);

/* Whether an input of the transaction at the front of the bytes may spend a script (Bitcoin Core's VerifyScript), with
 * real signatures: wakotehu_verify_known, and wakotehu_secp256k1_verdicts for each signature that the scripts ask for.
 * The codes are those of wakotehu_verify_known, which has a table or a room no more. It may be called by any threads at
 * once. */
wakotehu_code wakotehu_secp256k1_verify(const uint8_t *bytes, size_t length, uint64_t input, const uint8_t *spent,
                                        size_t spent_length, const wakotehu_flags *flags, uint32_t *accepted);

/* The same with the name of the failure, under rules by Bitcoin Core's bits, as wakotehu_verify_script tells it. */
wakotehu_code wakotehu_secp256k1_verify_script(const uint8_t *bytes, size_t length, uint64_t input, const uint8_t *spent,
                                               size_t spent_length, uint32_t flags, uint32_t *error);

#ifdef __cplusplus
}
#endif
#endif
