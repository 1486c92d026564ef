/*
 * The test's own C functions, of libhesstest.a, which `host/build hesstest` proves and writes to target/staticlib
 * (x86-64 Linux). No product carries them: so they stand under host/, and include/ has what a product takes over and
 * nothing else. `host/examples` holds each declaration to the function's own in crates/hesstest/src.
 *
 * Pointers, replies and refusals as in include/hessiantalc.h; docs/ENTRIES.md has the layouts of scripts, answers and
 * images. The two archives may be linked into one program.
 */
#ifndef HESSTEST_H
#define HESSTEST_H

#include <stddef.h>
#include <stdint.h>

#include "hessiantalc.h"

#ifdef __cplusplus
extern "C" {
#endif

/*
 * Runs a script, calls of 48 bytes, on a new path, and writes to `out` an answer of 48 bytes for each call, then the
 * 1,800 bytes of the path's image. Gives 0; or 13, `len` is no multiple of 48; or 16, `outlen` is below `len` + 1,800.
 */
uint64_t hess_script(const uint8_t *script, size_t len, uint8_t *out, size_t outlen);

/*
 * The answers of hess_choose_words by another way: the words are read into eight rivals first, and the choice gets these
 * by value.
 */
struct hess_reply hess_choose_rivals(const uint64_t field[8][12], double margin);

#ifdef __cplusplus
}
#endif

#endif
