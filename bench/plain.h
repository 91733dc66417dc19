// Plain C bodies for the functions of cheri_cap.h, with which the library is compared. The only test of them is that the
// benchmark compares their results with the library's.
#ifndef PLAIN_H
#define PLAIN_H

#include <cheri_cap.h>

cheri_cap_fields plain_unpack(uint64_t high, uint64_t low);
cheri_cap_u128 plain_pack(cheri_cap_fields fields);
bool plain_is_canonical(uint64_t high, uint64_t low);
cheri_cap_bounds plain_decode(uint64_t high, uint64_t low);
cheri_cap_granted plain_set_bounds(uint64_t base, uint64_t length_high, uint64_t length_low);
bool plain_represents(uint64_t high, uint64_t low, uint64_t address);
size_t plain_decode_many(const cheri_cap_u128 *words, size_t word_count, cheri_cap_bounds *bounds, size_t bounds_count);
size_t plain_is_canonical_many(const cheri_cap_u128 *words, size_t word_count, uint8_t *answers, size_t answer_count);
size_t plain_represents_many(const cheri_cap_u128 *words, size_t word_count, const uint64_t *addresses, size_t address_count, uint8_t *answers, size_t answer_count);
size_t plain_search_memory(const void *memory, size_t word_count, bool big_endian, const uint8_t *tag_bits, size_t tag_byte_count, const cheri_cap_query *query, uint64_t *positions, size_t position_count, size_t *next);
uint64_t plain_granule(uint64_t length_high, uint64_t length_low);
cheri_cap_u128 plain_round_length(uint64_t length_high, uint64_t length_low);
uint64_t plain_alignment_mask(uint64_t length_high, uint64_t length_low);
cheri_cap_read plain_read_word(const char *text, size_t length);
void plain_write_word(uint64_t high, uint64_t low, char *text);
cheri_cap_made plain_set_address(uint64_t high, uint64_t low, uint64_t address);
cheri_cap_made plain_increment(uint64_t high, uint64_t low, uint64_t amount);
cheri_cap_made plain_and_perms(uint64_t high, uint64_t low, uint16_t mask);
cheri_cap_made plain_set_flag(uint64_t high, uint64_t low, bool flag);
cheri_cap_made plain_set_bounds_on(uint64_t high, uint64_t low, uint64_t length_high, uint64_t length_low);
cheri_cap_made plain_seal(uint64_t high, uint64_t low, uint64_t authority_high, uint64_t authority_low);
cheri_cap_made plain_unseal(uint64_t high, uint64_t low, uint64_t authority_high, uint64_t authority_low);
cheri_cap_made plain_rebuild(uint64_t authority_high, uint64_t authority_low, uint64_t high, uint64_t low);
bool plain_is_subset(uint64_t high, uint64_t low, uint64_t outer_high, uint64_t outer_low);

#endif
