/*
 * The small page, straight from document 01: bit by bit, in its order and its words, so that each
 * function can be checked by eye against the sentence above it. Nothing here is shared with the library,
 * not even its header, and nothing is done for speed.
 */
#include "reference.h"

#include <stdbool.h>
#include <string.h>

/* "Refusal numbers". All return the number alone, 6 with the half and 3 with factory or late. Request T-04 of document
 * 02 has 51, 52 and 53 in the place of 5. */
enum refusal {
	ANSWERED = 0,
	WRONG_LENGTH = 1,
	OUT_OF_RANGE = 2,
	BAD_STATUS = 3,
	NO_TAG = 4,
	ALL_FF = 51,
	WRONG_MAGIC = 52,
	WRONG_MAGIC_REPAIRED = 53,
	NOT_REPAIRABLE = 6,
};

enum { FACTORY = 1, LATE = 2 };

static uint64_t refused(enum refusal refusal, unsigned detail)
{
	return (uint64_t)refusal + 256 * (uint64_t)detail;
}

/* Bit k of a number. */
static unsigned bit(uint32_t number, unsigned k)
{
	return (number >> k) % 2;
}

/* How many of a byte's bits are 1. */
static unsigned ones(uint8_t byte)
{
	unsigned count = 0;

	for (unsigned k = 0; k < 8; k++)
		count += bit(byte, k);
	return count;
}

/* ---- "Status" */

/* "The block is bad if two or more of the byte's bits are 0. Seven or eight zero bits mean factory, two
 * to six mean late." 0 for a good block. */
static unsigned bad_block(uint8_t status)
{
	unsigned zeros = 8 - ones(status);

	if (zeros >= 7)
		return FACTORY;
	if (zeros >= 2)
		return LATE;
	return 0;
}

/* ---- "Tags" */

/* free, log-copying, log, data-copying, data, boot-copying, boot */
static const uint8_t tags[7] = { 0xFF, 0x67, 0x06, 0x79, 0x18, 0x1F, 0x01 };

/* Is this number one of the seven tag bytes? */
static bool is_tag(uint64_t number)
{
	for (unsigned i = 0; i < 7; i++)
		if (number == tags[i])
			return true;
	return false;
}

/* "A byte at most one bit from a tag is that tag." False where there is none. */
static bool nearest_tag(uint8_t byte, uint8_t *tag)
{
	for (unsigned i = 0; i < 7; i++) {
		if (ones(byte ^ tags[i]) <= 1) {
			*tag = tags[i];
			return true;
		}
	}
	return false;
}

/* ---- "Protected word" */

/* The numbers from 3 to 31 that are not powers of two belong to data bits. */
static bool is_power_of_two(unsigned number)
{
	return number == 1 || number == 2 || number == 4 || number == 8 || number == 16;
}

/* "Check bit j is the odd-or-even sum of the data bits whose number has bit j set." */
static uint32_t check_bits(uint32_t data)
{
	uint32_t check = 0;
	unsigned data_bit = 0;

	for (unsigned number = 3; number <= 31; number++) {
		if (is_power_of_two(number))
			continue;
		for (unsigned j = 0; j < 5; j++)
			if (bit(number, j) == 1)
				check ^= (uint32_t)bit(data, data_bit) << j;
		data_bit++;
	}
	return check;
}

/* The data bit that has this number. */
static unsigned data_bit_of(unsigned wanted)
{
	unsigned data_bit = 0;

	for (unsigned number = 3; number < wanted; number++)
		if (!is_power_of_two(number))
			data_bit++;
	return data_bit;
}

/* "26 data bits stand in bits 31-6, bit 5 is unused (written 1), 5 check bits stand in bits 4-0." */
static uint32_t word_write(uint32_t data)
{
	return data << 6 | (uint32_t)1 << 5 | check_bits(data);
}

struct word {
	uint32_t data;
	bool repaired;
};

/* "The recomputed check bits XOR the stored ones give a number: 0 is clean, a power of two is a check bit
 * in error, any other names the data bit to flip." Bit 5 is ignored. */
static struct word word_read(uint32_t stored)
{
	struct word word = { stored >> 6, false };
	unsigned number = check_bits(word.data) ^ stored % 32;

	if (number == 0)
		return word;
	word.repaired = true;
	if (!is_power_of_two(number))
		word.data ^= (uint32_t)1 << data_bit_of(number);
	return word;
}

/* ---- "Half-page code" */

struct code {
	unsigned lp[16];
	unsigned cp[6];
};

/* "LP(2k) is the parity of all bits in bytes whose address bit k is 0, LP(2k+1) where it is 1. CP(2k) and
 * CP(2k+1) are the same over the bit's number in its byte." */
static struct code code_of(const uint8_t *half)
{
	struct code code = { { 0 }, { 0 } };

	for (unsigned address = 0; address < 256; address++) {
		for (unsigned number = 0; number < 8; number++) {
			const unsigned value = bit(half[address], number);

			for (unsigned k = 0; k < 8; k++)
				code.lp[2 * k + bit(address, k)] ^= value;
			for (unsigned k = 0; k < 3; k++)
				code.cp[2 * k + bit(number, k)] ^= value;
		}
	}
	return code;
}

/* "Stored inverted: byte one LP7..LP0, byte two LP15..LP8, byte three CP5..CP0 in bits 7-2 and 1s in bits
 * 1-0." */
static void code_write(const struct code *code, uint8_t *stored)
{
	memset(stored, 0, 3);
	for (unsigned i = 0; i < 8; i++) {
		stored[0] |= (uint8_t)((1 - code->lp[i]) << i);
		stored[1] |= (uint8_t)((1 - code->lp[8 + i]) << i);
	}
	for (unsigned i = 0; i < 6; i++)
		stored[2] |= (uint8_t)((1 - code->cp[i]) << (2 + i));
	stored[2] |= 3;
}

/* The same the other way. "Those last two bits are ignored on reading." */
static struct code code_read(const uint8_t *stored)
{
	struct code code;

	for (unsigned i = 0; i < 8; i++) {
		code.lp[i] = 1 - bit(stored[0], i);
		code.lp[8 + i] = 1 - bit(stored[1], i);
	}
	for (unsigned i = 0; i < 6; i++)
		code.cp[i] = 1 - bit(stored[2], 2 + i);
	return code;
}

enum verdict { CLEAN, CODE_BIT, DATA_BIT, LOST };

struct judged_half {
	enum verdict verdict;
	unsigned address;	/* of the data bit to flip */
	unsigned number;	/* of the data bit to flip */
};

/* "Difference of stored and computed code, 22 bits: none set, clean; exactly one set, a code bit, data
 * right; exactly one in each of the 11 pairs, the odd members spell the address and bit number of the data
 * bit to flip; anything else is not repairable." */
static struct judged_half half_judge(const uint8_t *half, const uint8_t *stored)
{
	const struct code is = code_of(half);
	const struct code was = code_read(stored);
	struct judged_half judged = { LOST, 0, 0 };
	unsigned set = 0;
	unsigned pairs_with_one = 0;

	for (unsigned k = 0; k < 8; k++) {
		unsigned even = was.lp[2 * k] ^ is.lp[2 * k];
		unsigned odd = was.lp[2 * k + 1] ^ is.lp[2 * k + 1];

		set += even + odd;
		if (even + odd == 1)
			pairs_with_one++;
		judged.address += odd << k;
	}
	for (unsigned k = 0; k < 3; k++) {
		unsigned even = was.cp[2 * k] ^ is.cp[2 * k];
		unsigned odd = was.cp[2 * k + 1] ^ is.cp[2 * k + 1];

		set += even + odd;
		if (even + odd == 1)
			pairs_with_one++;
		judged.number += odd << k;
	}
	if (set == 0)
		judged.verdict = CLEAN;
	else if (set == 1)
		judged.verdict = CODE_BIT;
	else if (pairs_with_one == 11)
		judged.verdict = DATA_BIT;
	return judged;
}

/* Flips the data bit that a judgement names, if it names one. */
static void half_repair(uint8_t *half, const struct judged_half *judged)
{
	if (judged->verdict == DATA_BIT)
		half[judged->address] ^= (uint8_t)(1 << judged->number);
}

/* ---- a spare's fields */

struct fields {
	uint8_t status;
	uint8_t tag;
	uint32_t path;
	uint32_t count;
	unsigned repairs;
};

static uint32_t word_at(uint8_t first, uint8_t second, uint8_t third, uint8_t fourth)
{
	return (uint32_t)first << 24 | (uint32_t)second << 16 | (uint32_t)third << 8 | fourth;
}

/* "51 when all 16 spare bytes are FF; 52 when the count word needed no repair and its magic is wrong; 53 when it was
 * repaired and the magic is still wrong. 51 is tested before 52 and 53." */
static enum refusal not_ours(const uint8_t *spare, const struct word *count)
{
	unsigned written = 0;

	for (unsigned i = 0; i < 16; i++)
		if (spare[i] != 0xFF)
			written++;
	if (written == 0)
		return ALL_FF;
	return count->repaired ? WRONG_MAGIC_REPAIRED : WRONG_MAGIC;
}

/* Refusals 3, 4, and 51 to 53, in this order, or the fields of a spare with the repairs of tag, path word and
 * count word. "Top 8 data bits are 56 hex, low 18 bits the erase count." */
static uint64_t spare_judge(const uint8_t *spare, struct fields *fields)
{
	const struct word path = word_read(word_at(spare[0], spare[1], spare[2], spare[3]));
	const struct word count = word_read(word_at(spare[6], spare[7], spare[11], spare[12]));

	if (bad_block(spare[5]) != 0)
		return refused(BAD_STATUS, bad_block(spare[5]));
	if (!nearest_tag(spare[4], &fields->tag))
		return refused(NO_TAG, 0);
	if (count.data >> 18 != 0x56)
		return refused(not_ours(spare, &count), 0);

	fields->status = spare[5];
	fields->path = path.data;
	fields->count = count.data % 262144;
	fields->repairs = 0;
	if (spare[4] != fields->tag)
		fields->repairs++;
	if (path.repaired)
		fields->repairs++;
	if (count.repaired)
		fields->repairs++;
	return ANSWERED;
}

static void big_endian(uint32_t number, uint8_t *bytes)
{
	bytes[0] = (uint8_t)(number >> 24);
	bytes[1] = (uint8_t)(number >> 16);
	bytes[2] = (uint8_t)(number >> 8);
	bytes[3] = (uint8_t)number;
}

static void fields_write(const struct fields *fields, uint8_t *bytes)
{
	bytes[0] = fields->status;
	bytes[1] = fields->tag;
	big_endian(fields->path, bytes + 2);
	big_endian(fields->count, bytes + 6);
	bytes[10] = (uint8_t)fields->repairs;
}

/* ---- the entries. Order of refusals: lengths, then other arguments, then 3, 4, one of 51 to 53, 6. */

uint64_t ref_half_code(const uint8_t *half, size_t half_len, uint8_t *code, size_t code_len)
{
	struct code computed;

	if (half_len != 256 || code_len != 3)
		return refused(WRONG_LENGTH, 0);

	computed = code_of(half);
	code_write(&computed, code);
	return ANSWERED;
}

/* "Writing takes 512 data bytes, one of the seven tag bytes, path and count, and fills 16 lent bytes." */
uint64_t ref_spare_write(const uint8_t *data, size_t data_len, uint64_t tag, uint64_t path, uint64_t count,
			 uint8_t *spare, size_t spare_len)
{
	struct code first, second;
	uint8_t word[4];

	if (data_len != 512 || spare_len != 16)
		return refused(WRONG_LENGTH, 0);
	if (!is_tag(tag) || path >= 67108864 || count > 262142)
		return refused(OUT_OF_RANGE, 0);

	big_endian(word_write((uint32_t)path), spare);
	spare[4] = (uint8_t)tag;
	spare[5] = 0xFF;
	big_endian(word_write((uint32_t)0x56 << 18 | (uint32_t)count), word);
	spare[6] = word[0];
	spare[7] = word[1];
	spare[11] = word[2];
	spare[12] = word[3];
	first = code_of(data);
	second = code_of(data + 256);
	code_write(&second, spare + 8);
	code_write(&first, spare + 13);
	return ANSWERED;
}

uint64_t ref_spare_read(const uint8_t *spare, size_t spare_len, uint8_t *fields, size_t fields_len)
{
	struct fields found;
	uint64_t refusal;

	if (spare_len != 16 || fields_len != 11)
		return refused(WRONG_LENGTH, 0);
	refusal = spare_judge(spare, &found);
	if (refusal != ANSWERED)
		return refusal;

	fields_write(&found, fields);
	return ANSWERED;
}

/* "Data is repaired in place only when the whole read succeeds; the spare is never changed." */
uint64_t ref_page_read(uint8_t *data, size_t data_len, const uint8_t *spare, size_t spare_len,
		       uint8_t *fields, size_t fields_len)
{
	struct judged_half first, second;
	struct fields found;
	uint64_t refusal;

	if (data_len != 512 || spare_len != 16 || fields_len != 11)
		return refused(WRONG_LENGTH, 0);
	refusal = spare_judge(spare, &found);
	if (refusal != ANSWERED)
		return refusal;
	first = half_judge(data, spare + 13);
	second = half_judge(data + 256, spare + 8);
	if (first.verdict == LOST)
		return refused(NOT_REPAIRABLE, 1);
	if (second.verdict == LOST)
		return refused(NOT_REPAIRABLE, 2);

	if (first.verdict != CLEAN)
		found.repairs++;
	if (second.verdict != CLEAN)
		found.repairs++;
	half_repair(data, &first);
	half_repair(data + 256, &second);
	fields_write(&found, fields);
	return ANSWERED;
}
