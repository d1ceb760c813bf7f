/*
 * The same rules as the module's, in plain C on sets of bits, with no proof: what the archive
 * is measured against. The functions take and answer what those of include/aestilumne.h do.
 */
#ifndef PLAIN_H
#define PLAIN_H

#include <stddef.h>
#include <stdint.h>

uint64_t plain_check(const uint8_t *policy, size_t n);
uint64_t plain_request(const uint8_t *policy, size_t n, uint64_t officer, uint64_t kind,
                       uint64_t a, uint64_t b, uint8_t *out, size_t out_n);
uint64_t plain_listing(const uint8_t *policy, size_t n, uint64_t officer, uint8_t *out,
                       size_t out_n);
uint64_t plain_question(const uint8_t *policy, size_t n, uint64_t user, uint64_t permission);

#endif
