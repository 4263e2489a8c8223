/*
 * Reamsickle: spare areas of the small NAND chip, read and written with repair, its boot blocks, mapped, and
 * the bad-block table of the large NAND chip, read, updated and recovered.
 *
 * The library works on bytes that the caller lends. It drives no chip, allocates nothing and keeps
 * nothing between calls, so calls on different buffers may run side by side.
 *
 * The small chip
 *
 *   A page has 512 data bytes and 16 spare bytes:
 *
 *	spare byte	holds
 *	0-3		path word, big endian
 *	4		tag
 *	5		block status, written as FF
 *	6, 7, 11, 12	magic-and-count word, big endian, in that order
 *	8-10		code of the second half (data bytes 256-511)
 *	13-15		code of the first half (data bytes 0-255)
 *
 *   The first and the last page of a boot block have the tag REAM_TAG_BOOT and the path 4 * boot number +
 *   generation. Boot numbers go from 0 to at most 2^24 - 1; a chip block may hold any of them. An update writes the
 *   boot number's new block in the next generation, 0 to 3 and 0 again, and then erases the old block. So a power
 *   cut can leave both. Unless the old block has been erased the update is not complete, and the old block still
 *   holds the boot number (source document 000, 4.2). ream_boot_map() tells them apart.
 *
 * The large chip
 *
 *   A page has 2,048 data bytes and 64 spare bytes, called OOB. The chip has N blocks, N a multiple of 4
 *   from 8 to 32,768. Its last blocks are the region, in which the tables are kept: size blocks, N - size to
 *   N - 1, where size is 4 to 7 and at most half of N (so N = 8 allows 4 alone, N = 12 allows 4 to 6). Chips
 *   in service have 4. Every entry for the large chip takes N first, then size.
 *
 *   A table that lies below the region of the size given is not found: of a settled pair ream_table_read() then
 *   refuses with REAM_NOT_SETTLED if one copy does, and with REAM_NO_COPY if both do.
 *
 *   The bad-block table has an entry of two bits for each block (enum ream_entry). Its bitmap has N/4
 *   bytes, with block b in bits 2(b mod 4) and up of byte b/4. It fills the data of P pages, in rising
 *   order, where P is N/4 divided by 2,048, rounded up: 1 to 4. The rest of the last page is written FF
 *   and ignored on reading.
 *
 *   The table is kept twice, as a primary and as a mirror, each copy in the first P pages of a block of its
 *   own. Both blocks lie in the region.
 *
 *	OOB byte	holds
 *	0-13		the controller's bytes; 0 in OOB 0 of a block's first page can mark a bad block, as can 0
 *			in all 64 bytes
 *	14-17		signature, primary 42 62 74 30, mirror 31 74 62 42
 *	18		version, 0 to 255; after 255 comes 0
 *	19-63		FF
 *
 *   The region is lent as two buffers. The image has the first P pages of each of its blocks, lowest block
 *   first, each page 2,048 + 64 bytes: size * P * 2,112 bytes. The status has a byte for each of these pages
 *   in the same order, REAM_READ_WELL or REAM_UNREADABLE: size * P bytes. An unreadable page's bytes may be
 *   anything, but the OOB of a block's first page is lent as the chip gives it, even then: it can say that the
 *   block is bad. ream_image_size() and ream_status_size() give the sizes for an N and a size,
 *   ream_table_pages(), ream_marks_size() and ream_bitmap_size() for an N; ream_region_fits() tells whether the
 *   entries take an N and a size.
 *
 *   A block is a good primary (a good mirror) if its P pages all read well, with that signature and with one
 *   version. It is readable as bad if its first page reads well, has neither signature, and OOB byte 0 is 0, or
 *   if all 64 OOB bytes of its first page are 0, whether that reads well or not. The pair is settled if there is
 *   exactly one good primary and exactly one good mirror, with equal versions and equal bitmaps.
 *
 *   No answer depends on any other byte of a region than these: the status; of pages that read well the
 *   bitmap's bytes, OOB 14-18, and OOB 0 of a block's first page; and the 64 OOB bytes of each block's first
 *   page, also of an unreadable one, by whether all of them are 0.
 *
 * Plans, failed steps and power cuts
 *
 *   A plan is a list of steps for the driver to carry out in their order, each to its end before the next
 *   begins. A step erases a block, writes one page of a copy into an erased block, or writes zeros into the OOB
 *   of a block that failed. Steps are numbered from 0. A plan's version is the one that its pages carry. The
 *   page that a step writes is asked for by the step's number, from the snapshot that the plan was made from:
 *
 *	read the region: this is the snapshot; keep it, and the wanted bitmap, to the plan's end
 *	begin a list of failed steps: it is empty
 *	plan, with the list: ream_update_plan() or ream_recovery_plan()
 *	for each step of the plan, in order:
 *		an erase: erase its block
 *		a write: ask ream_update_page() or ream_recovery_page() for the page, with the same snapshot and
 *			list and the step's number; write these 2,112 bytes to the step's block and page
 *		a zero step: program all 64 OOB bytes of its block's first page with 00, without an erase before
 *			it; leave the page's data bytes out, or give FF for them
 *
 *   The chip may report, while power is on, that a step failed. The plan then goes on without that block:
 *
 *	add the step's number to the end of the list
 *	plan again, with the same snapshot, the same wanted bitmap and the list
 *	if that is answered: carry out what it gives, from its step 0
 *	if it is refused, REAM_NO_TARGET or REAM_ZERO_FAILED: carry out nothing more; go on as after a power cut
 *
 *   What planning gives then begins with a zero step on the failed block, which is readable as bad from there
 *   on: it is retired, and no later plan touches it. Then the copy that the block was for is written to another
 *   one, from its first page on. It is the same update or recovery, with the same table and the same version,
 *   its steps are numbered from 0, and a step of it may fail in its turn. ream_update_plan() has the rule.
 *
 *   REAM_NO_TARGET (11) says that no block is left for the copy, REAM_ZERO_FAILED (12) that the step that failed
 *   was a zero step. There is no further plan then, and no zero step: the region is as if power had been cut in
 *   the failed step, and the driver does as after a cut. The recovery that it plans, with an empty list, is not
 *   refused. The failed block may not be retired, so that a plan can choose it again: take the chip out of
 *   service soon.
 *
 *   A power cut ends the plan, and its list. The driver then reads the region again, plans a recovery from what
 *   it finds and carries that out; if power fails in the recovery, the same again. So it reads its table like
 *   this:
 *
 *	read the region; ream_table_read()
 *	if that is refused with REAM_NOT_SETTLED: plan a recovery, carry it out, start again
 *
 *   An update has its new primary complete before it touches the mirror. So whatever fails or is cut, these are
 *   the good copies that can be found:
 *
 *	primary	mirror	what a recovery does		and the table is
 *	old	old	nothing				the old one
 *	none	old	makes the primary again		the old one
 *	new	old	makes the mirror anew		the new one
 *	new	none	makes the mirror		the new one
 *	new	new	nothing				the new one
 *
 *   From any settled pair, whatever is planned, whichever steps fail and wherever power fails, in a recovery too:
 *   after each recovery that is carried out to its end the pair is settled and holds the whole old table or the
 *   whole new one of the last update, with its version: the new one exactly if, when the update ended, was cut,
 *   was given up for REAM_NO_TARGET or REAM_ZERO_FAILED, or was replaced by another plan, a new primary stood in
 *   some block with all its pages complete. Planning again after a failed step is none of these: the update goes
 *   on. An entry that a settled table calls not good is the same in every later settled one. No step touches a
 *   block outside the region or erases one that is readable as bad. No recovery that is planned with an empty
 *   list is refused for what the region holds.
 *
 *   That rests on what the chip and its driver see to. Nobody else writes in the region. All pages but those that
 *   a step is on keep reading the same.
 *
 *	an erase	done		leaves the block's P pages blank: they read well and are all FF
 *			cut or failed	leaves each of them as it was, blank or unreadable
 *	a write		done		leaves its page complete: it reads well, with data and OOB 14-63 as asked;
 *					in OOB 0-13 the controller may put anything
 *			cut or failed	leaves its page blank, complete or unreadable
 *	a zero step	done		leaves the 64 OOB bytes of the first page 0; its data may be anything, and it
 *					may read well or not
 *			cut or failed	leaves the first page as it was, as one that is done does, or unreadable
 *
 *   So a page whose write is reported as failed may be complete, and counts as complete if it is. A first page
 *   that a cut or failed erase or write leaves unreadable is lent with at least one OOB byte that is not 0: a
 *   driver that gets no bytes for such a page lends FF.
 *
 * A chip's first pair of tables
 *
 *   On a new chip there is no table yet, and reading and planning refuse with REAM_NO_COPY. Its first pair is made in
 *   six lines:
 *
 *	1  read the region; where ream_recovery_plan() does not refuse it with REAM_NO_COPY, go on at 6
 *	2  choose a block of the region that is not readable as bad: the highest, so that it is the same each time
 *	3  make the bitmap with ream_first_bitmap(), FF for both marks of the chosen block; choose a version
 *	4  erase the block; for page 0 to P - 1 ask ream_table_page() for the primary's page, and write it there
 *	5  if power was cut, start again at 1; if a step failed, do a zero step on its block and start again at 1
 *	6  read the region, plan a recovery and carry it out: it writes the mirror
 *
 *   Wherever power is cut or a step fails in 4: as long as a page of the primary is not complete no copy is found,
 *   REAM_NO_COPY, and the block is still not readable as bad. Once all are complete the primary is found alone. From
 *   there on all that is said above of a settled pair holds: a recovery, carried out, settles on that bitmap with
 *   that version; only where every other block of the region is readable as bad is it refused, with REAM_NO_TARGET.
 *   A block is certainly not readable as bad if OOB byte 0 of its first page is not 0. Once the recipe has touched
 *   a block, that byte and the second page's are not the factory's marks any more: hence FF in line 3.
 *
 *   Whether a block is readable as bad shows on its first page alone. A block of the region that the factory has marked
 *   on its second page alone is not, so the recipe and later plans may put a copy there. A driver that is to keep it
 *   out does a zero step on it before it begins.
 *
 * How to call
 *
 *   Every number is a uint64_t and is judged as a whole; none is cut to a smaller width. Every buffer
 *   is a pointer followed by its length in bytes. A buffer marked "out" has a length too, and is
 *   refused like any other when that length is not the one named. The list of failed steps has no length named:
 *   any is taken.
 *
 *   Every entry returns one uint64_t, the answer:
 *
 *	bits 0-7	the refusal, 0 (REAM_OK) where the call was answered
 *	bits 8-63	of a refused call its detail: REAM_BAD_BLOCK has the kind of bad block,
 *			REAM_UNREPAIRABLE has the half, REAM_BOOT_SET has a boot number, all others have 0; of
 *			an answered call the numbers that the entry names, 0 where it names none
 *
 *   ream_refusal() and ream_detail() take it apart; ream_mapped_count(), ream_erased_count(), ream_version(),
 *   ream_primary_block(), ream_mirror_block() and ream_step_count() give the numbers of an answered call. To see
 *   whether a call was answered, ask ream_ok(), and do not compare the answer itself with 0: where the compiler
 *   can (gcc, clang), it warns of an answer that is dropped.
 *
 *   A refused call changes no lent byte, outputs included. Where several things are wrong at once the order of
 *   judging decides: N and size, or the number of small-chip blocks (2), then all lengths (1), then the other
 *   arguments (2), then what the page holds (3, 4, one of 51 to 53, 6), the boot blocks (13), or what the region
 *   holds (8, 7, 9, then 10 or 11). Then come the failed steps, oldest first: for each its number (2), whether it is
 *   a zero step (12), and whether there is a target (11); the first refusal that is met is the answer, and the list
 *   is not looked at further. The number of the step whose page is asked for (2) comes last of all. While N, size or
 *   the number of small-chip blocks is refused no length is judged. Each entry below names the refusals it can give,
 *   in its order.
 *
 * What the library cannot see, and the caller owes
 *
 *   - N and size are the chip's own, and one size for all its life. With a larger one a recovery may erase a
 *     block that holds data. With a smaller one, a recovery may make a copy again that lies below, and the
 *     chip's own size then finds two of a kind and is refused with REAM_SEVERAL_COPIES.
 *   - A buffer really has as many bytes as the length beside it says.
 *   - Buffers lent to one call do not overlap.
 *   - No pointer is null, not even beside a length of 0. Where a pointer may be null, call the inline
 *     function with "_checked" at its end instead: it takes a null pointer for a buffer of no bytes.
 *
 *   Buffers may stand at any address; none needs to be aligned.
 *
 * Link with libreamsickle.a; of other libraries it needs no more than memcpy() and memset(). Where `make install` has
 * put both, `pkg-config --cflags --libs reamsickle` prints the flags. Programs may be C, from C99 on, or C++. The host
 * has to be little endian, with 64-bit pointers; docs/DRIVERS.md has the targets, the stack that each entry takes, and
 * what a kernel's driver has to know.
 */
#ifndef REAMSICKLE_H
#define REAMSICKLE_H

#ifdef __KERNEL__
#include <linux/types.h>
#else
#include <stddef.h>
#include <stdint.h>
#endif

/* The host has 64-bit lengths and is little endian: the entries are compiled for no other. */
typedef char ream_needs_a_host_with_64_bits[sizeof(size_t) == 8 ? 1 : -1];
#if defined(__BYTE_ORDER__) && __BYTE_ORDER__ != __ORDER_LITTLE_ENDIAN__
#error "libreamsickle.a is for little-endian hosts: see docs/DRIVERS.md"
#endif

/* Goes before a function whose answer has to be looked at. */
#if defined(__GNUC__) || defined(__clang__)
#define REAM_MUST_CHECK __attribute__((warn_unused_result))
#else
#define REAM_MUST_CHECK
#endif

/*
 * The library's own version, as text and as a number to compare: 10,000 * major + 100 * minor + patch.
 * (ream_version() gives that of a table or a plan.)
 */
#define REAM_LIBRARY_VERSION "5.0"
#define REAM_LIBRARY_VERSION_NUMBER 50000

/* The refusals. Three stand in the place of 5, which is not given: see ream_not_ours(). */
enum ream_refusal_number {
	REAM_OK = 0,		/* answered */
	REAM_LENGTH = 1,	/* a lent buffer's length is not the one named */
	REAM_RANGE = 2,		/* a number is outside its range */
	REAM_BAD_BLOCK = 3,	/* the status byte marks a bad block; detail: enum ream_bad_block */
	REAM_TAG = 4,		/* the tag byte is not within one bit of a tag */
	REAM_ERASED = 51,	/* all 16 spare bytes are FF */
	REAM_NOT_OURS = 52,	/* the count word needed no repair, and its magic is not 56 hex */
	REAM_NOT_OURS_REPAIRED = 53,	/* the count word was repaired, and its magic is still not 56 hex */
	REAM_UNREPAIRABLE = 6,	/* a half is not repairable; detail: enum ream_half */
	REAM_NO_COPY = 7,	/* no good primary and no good mirror */
	REAM_SEVERAL_COPIES = 8,	/* two or more good copies of one kind */
	REAM_OPPOSITE = 9,	/* both copies good, versions 128 apart */
	REAM_NOT_SETTLED = 10,	/* reading or update: the pair is not settled, and none of 7 to 9 */
	REAM_NO_TARGET = 11,	/* planning: there is no block for a copy that is missing or whose block failed */
	REAM_ZERO_FAILED = 12,	/* planning: the failed step is a zero step */
	REAM_BOOT_SET = 13,	/* the boot blocks do not fit together: see ream_boot_map(); detail: a boot number */
};

/* The detail of REAM_BAD_BLOCK. */
enum ream_bad_block {
	REAM_FACTORY = 1,	/* seven or eight bits of the status byte are 0 */
	REAM_LATE = 2,		/* two to six are */
};

/* The detail of REAM_UNREPAIRABLE. Where neither half is repairable, the first is named. */
enum ream_half {
	REAM_FIRST_HALF = 1,	/* data bytes 0-255 */
	REAM_SECOND_HALF = 2,	/* data bytes 256-511 */
};

/*
 * The tags. Any two differ in at least three bits, so on reading a byte at most one bit away from a
 * tag is that tag. Writing takes these seven values and no other.
 */
enum ream_tag {
	REAM_TAG_FREE = 0xFF,
	REAM_TAG_LOG_COPYING = 0x67,
	REAM_TAG_LOG = 0x06,
	REAM_TAG_DATA_COPYING = 0x79,
	REAM_TAG_DATA = 0x18,
	REAM_TAG_BOOT_COPYING = 0x1F,
	REAM_TAG_BOOT = 0x01,
};

/* The small chip's sizes, in bytes: the lengths that its entries ask for, and those that ream_boot_map() asks for
 * a block. */
enum ream_small_size {
	REAM_SMALL_DATA_SIZE = 512,	/* a page's data */
	REAM_SMALL_SPARE_SIZE = 16,	/* a page's spare bytes */
	REAM_HALF_SIZE = 256,		/* half of a page's data */
	REAM_HALF_CODE_SIZE = 3,	/* the code of a half */
	REAM_FIELDS_SIZE = 11,		/* what reading gives */
	REAM_BOOT_SPARES_SIZE = 32,	/* a block's spares, of its first page and of its last */
	REAM_BOOT_BLOCK_SIZE = 2,	/* a block's room in a list of boot blocks */
};

/* The largest numbers that can be written, and the most blocks that can be mapped. Reading can report a count of
 * 262,143 too. */
enum ream_small_range {
	REAM_PATH_MAX = 67108863,	/* 2^26 - 1 */
	REAM_COUNT_MAX = 262142,
	REAM_SMALL_BLOCKS_MAX = 1024,
};

/* An entry of the bad-block table. */
enum ream_entry {
	REAM_ENTRY_FACTORY = 0,		/* marked bad by the factory */
	REAM_ENTRY_LATE = 1,		/* went bad in use */
	REAM_ENTRY_RESERVED = 2,	/* not to be used */
	REAM_ENTRY_GOOD = 3,
};

/* A status byte of a region's page. No other value is taken. */
enum ream_page_status {
	REAM_READ_WELL = 0,
	REAM_UNREADABLE = 1,
};

/* What a step does. */
enum ream_step_kind {
	REAM_ERASE = 0,		/* erases a block */
	REAM_WRITE = 1,		/* writes one page */
	REAM_ZERO = 2,		/* writes zeros to all 64 OOB bytes of a block's first page */
};

/* The two copies of the table. */
enum ream_copy {
	REAM_PRIMARY = 1,
	REAM_MIRROR = 2,
};

/* The large chip's sizes: in bytes, where no other unit is named. */
enum ream_large_size {
	REAM_LARGE_DATA_SIZE = 2048,	/* a page's data */
	REAM_LARGE_OOB_SIZE = 64,	/* a page's OOB */
	REAM_LARGE_PAGE_SIZE = 2112,	/* a page, data and OOB */
	REAM_REGION_BLOCKS_MIN = 4,	/* the smallest size of the region, in blocks: that of the chips in service */
	REAM_REGION_BLOCKS_MAX = 7,	/* the largest */
	REAM_STEP_SIZE = 4,		/* a step of a plan */
	REAM_STEPS_SIZE = 64,		/* the room that planning asks for, 16 steps */
	REAM_FAILED_MAX = 6,		/* room for any list of failed steps: one of size - 1 or more is refused */
	REAM_BLOCKS_MIN = 8,		/* the smallest N */
	REAM_BLOCKS_MAX = 32768,	/* the largest N, and with it and the largest region: */
	REAM_IMAGE_SIZE_MAX = 59136,
	REAM_STATUS_SIZE_MAX = 28,
	REAM_MARKS_SIZE_MAX = 65536,
	REAM_BITMAP_SIZE_MAX = 8192,
};

#ifdef __cplusplus
extern "C" {
#endif

/*
 * The code of half a page, as it is stored in a spare (SmartMedia order).
 *
 *	half	256 bytes
 *	code	3 bytes, out: LP7 to LP0; LP15 to LP8; CP5 to CP0 in bits 7-2. All are stored inverted,
 *		and bits 1-0 of the third byte are 1.
 *
 * Refuses REAM_LENGTH, and nothing else. half is never changed.
 */
REAM_MUST_CHECK
uint64_t ream_half_code(const uint8_t *half, size_t half_len, uint8_t *code, size_t code_len);

/*
 * Makes the spare of a page: status FF, the tag, the path word, the magic-and-count word and the codes
 * of both halves.
 *
 *	data	512 bytes, the page's data
 *	tag	one of enum ream_tag
 *	path	0 to REAM_PATH_MAX; for a boot page it is 4 * boot number + generation (0 to 3)
 *	count	the block's erase count, 0 to REAM_COUNT_MAX
 *	spare	16 bytes, out
 *
 * Refuses, in this order: REAM_LENGTH; REAM_RANGE (tag, path or count). data is never changed.
 */
REAM_MUST_CHECK
uint64_t ream_spare_write(const uint8_t *data, size_t data_len, uint64_t tag, uint64_t path, uint64_t count,
			  uint8_t *spare, size_t spare_len);

/*
 * Reads a spare without its page's data. The codes of the halves (bytes 8-10 and 13-15) are not looked
 * at.
 *
 *	spare	16 bytes
 *	fields	11 bytes, out; ream_fields_get() takes them apart:
 *		0	status byte, as stored
 *		1	tag, after repair
 *		2-5	path, after repair, big endian
 *		6-9	count, after repair, big endian
 *		10	how many were repaired of tag, path word and count word: 0 to 3
 *
 * A word of which a check bit alone was wrong counts as repaired; a word's unused bit 5 and a status
 * byte with a single 0 bit do not count. A word with two wrong bits comes out wrong, and no answer
 * tells: a word is put right for one wrong bit, and never refused.
 *
 * Refuses, in this order: REAM_LENGTH; REAM_BAD_BLOCK with its kind; REAM_TAG; then, if the magic, after repair, is
 * not 56 hex, one of three:
 *
 *	REAM_ERASED		all 16 spare bytes are FF, as after an erase
 *	REAM_NOT_OURS		the count word needed no repair: by its check bits it was written so
 *	REAM_NOT_OURS_REPAIRED	the count word was repaired, in a data bit or a check bit, and its magic is still
 *				another: it may be ours with several bits wrong
 *
 * So an erased spare with one bit at 0 is REAM_NOT_OURS, or REAM_NOT_OURS_REPAIRED if that bit is one of the count
 * word's, other than its unused bit 5. ream_not_ours() takes the three for one. spare is never changed.
 */
REAM_MUST_CHECK
uint64_t ream_spare_read(const uint8_t *spare, size_t spare_len, uint8_t *fields, size_t fields_len);

/*
 * Reads a page: its spare as ream_spare_read() does, and its data, which is repaired in place.
 *
 *	data	512 bytes, in and out
 *	spare	16 bytes
 *	fields	11 bytes, out: as of ream_spare_read(), but byte 10 counts five things, 0 to 5: tag,
 *		path word, count word, first half, second half
 *
 * In a page otherwise as written, one flipped bit in a half, among its 256 data bytes or the 22 bits of
 * its code, gives the data as written; two are refused. A half of which a code bit alone was wrong
 * counts as repaired, and its data stays as it is. The two low bits of a code's third byte are ignored.
 *
 * Refuses, in this order: REAM_LENGTH; REAM_BAD_BLOCK with its kind; REAM_TAG; REAM_ERASED, REAM_NOT_OURS or
 * REAM_NOT_OURS_REPAIRED, by the spare alone, whatever the data is; REAM_UNREPAIRABLE with the half. data is changed
 * only by a call that is answered, so no half is repaired when the other is refused. spare is never changed.
 */
REAM_MUST_CHECK
uint64_t ream_page_read(uint8_t *data, size_t data_len, const uint8_t *spare, size_t spare_len,
			uint8_t *fields, size_t fields_len);

/*
 * Maps the boot blocks: tells which chip block holds which boot number, and which blocks are to be erased.
 *
 *	number	how many blocks of the small chip are lent, 0 to REAM_SMALL_BLOCKS_MAX
 *	spares	32 * number bytes: of each block, in rising order, the spare of its first page, then that of its
 *		last
 *	mapped	2 * number bytes, out: the chip block of boot number 0, then that of 1, and so on
 *	erased	2 * number bytes, out: the chip blocks to be erased, in rising order of their boot numbers
 *
 * In both lists a chip block is its place among the blocks lent, from 0, in two bytes, big endian:
 * ream_boot_block(). Bytes past a list's last block keep what they held.
 *
 * A block counts as a boot block if ream_spare_read() answers for both of its spares, both tags are REAM_TAG_BOOT
 * and both paths are the same, tags and paths after repair. All other blocks are passed over, as one is that was
 * not written to its end.
 *
 *	blocks of a boot number		mapped		to be erased
 *	one				that		none
 *	two, of generations g and g + 1	that of g	that of g + 1
 *	  modulo 4 (3 and 0 too)
 *
 * So an update that was cut is taken back. A loader reads boot number k from block ream_boot_block(mapped, k), and
 * erases the blocks of erased before the next update of a boot block, which would add a third to a number that has
 * two.
 *
 * REAM_BOOT_SET has the smallest boot number that no block has though one has a higher number, that two blocks have
 * in other generations than these, or that three or more have.
 *
 * An answered call gives the number of mapped blocks (bits 8-23) and that of blocks to be erased (bits 24-39):
 * ream_mapped_count(), ream_erased_count(). Both are 0 if there is no boot block.
 *
 * Refuses, in this order: REAM_RANGE (number); REAM_LENGTH; REAM_BOOT_SET with the boot number. spares is never
 * changed. The call keeps 4 KiB on the stack, whatever the number of blocks.
 */
REAM_MUST_CHECK
uint64_t ream_boot_map(uint64_t number, const uint8_t *spares, size_t spares_len, uint8_t *mapped, size_t mapped_len,
		       uint8_t *erased, size_t erased_len);

/*
 * The first bitmap of a chip, from the factory's marks.
 *
 *	n	the number of blocks, N
 *	size	the number of region blocks; it is judged, and changes nothing else here
 *	marks	2N bytes: of each block, block 0 first, OOB byte 0 of its first page and then OOB byte 0 of its
 *		second page, so that bytes 2b and 2b + 1 are block b's
 *	bitmap	N/4 bytes, out: REAM_ENTRY_FACTORY where either mark is 0, REAM_ENTRY_GOOD where both are any
 *		other byte
 *
 * A factory marks a bad block on its first or on its second page. The marks of first pages alone, N bytes, which were
 * right before 4.0, are refused with REAM_LENGTH. A mark is lent as the chip gives it, even where its page does not
 * read well.
 *
 * Refuses, in this order: REAM_RANGE (n or size); REAM_LENGTH. marks is never changed.
 */
REAM_MUST_CHECK
uint64_t ream_first_bitmap(uint64_t n, uint64_t size, const uint8_t *marks, size_t marks_len,
			   uint8_t *bitmap, size_t bitmap_len);

/*
 * Reads the table of a settled pair.
 *
 *	n	the number of blocks, N
 *	size	the number of region blocks
 *	image	size * P * 2,112 bytes, the region's pages
 *	status	size * P bytes, how each of them was read
 *	bitmap	N/4 bytes, out: the table, without the rest of its last page
 *
 * An answered call gives the version (bits 8-15) and the chip blocks that hold the primary (bits 16-31) and
 * the mirror (bits 32-47), from N - size to N - 1: ream_version(), ream_primary_block(), ream_mirror_block().
 *
 * Refuses, in this order: REAM_RANGE (n or size); REAM_LENGTH; REAM_RANGE (a status byte); REAM_SEVERAL_COPIES;
 * REAM_NO_COPY; REAM_OPPOSITE; REAM_NOT_SETTLED. image and status are never changed.
 */
REAM_MUST_CHECK
uint64_t ream_table_read(uint64_t n, uint64_t size, const uint8_t *image, size_t image_len,
			 const uint8_t *status, size_t status_len, uint8_t *bitmap, size_t bitmap_len);

/*
 * Plans the update of a settled pair. Each entry of the new table is the old one where that is not
 * REAM_ENTRY_GOOD, else the wanted one: a block once not good keeps its entry, whatever is wanted.
 *
 *	n	the number of blocks, N
 *	size	the number of region blocks
 *	image	size * P * 2,112 bytes, the region's pages
 *	status	size * P bytes, how each of them was read
 *	wanted	N/4 bytes, a bitmap
 *	failed	any number of bytes: the numbers of the steps that failed, oldest first; none for a first plan
 *	steps	64 bytes, out, room for 16 steps; ream_step_get() takes the four bytes of a step apart:
 *		0	kind, enum ream_step_kind
 *		1-2	chip block, big endian, N - size to N - 1
 *		3	page, 0 to P - 1; 0 for an erase and for a zero step
 *		Bytes past the plan's last step keep what they held.
 *
 * If the new table is the old one, the plan is empty and its version is the pair's. Otherwise it has 2P + 2
 * steps: erase the primary's block, write its P pages in rising order, erase the mirror's block, write its P
 * pages in rising order, all with the pair's version plus 1 (0 after 255).
 *
 * For each failed step, oldest first, the plan becomes another one, of the same table and version, with steps
 * numbered from 0. A failed step's number is that in the plan as it stood after the failures before it.
 *
 *	a zero step on the failed step's block
 *	the erase and all P pages of the copy that this step belonged to, in the highest block of the region that
 *	  is neither the other copy's, nor readable as bad in the image, nor the block of a failed step
 *	if that copy was the plan's first of two: the erase and all P pages of the other one, as they were planned
 *
 * The other copy's block is the one that it stands in, or will stand in by the plan. A plan has at most
 * 2P + 3 steps: 11.
 *
 * An answered call gives the plan's version (bits 8-15) and its number of steps (bits 16-23):
 * ream_version(), ream_step_count().
 *
 * Refuses, in this order: REAM_RANGE (n or size); REAM_LENGTH; REAM_RANGE (a status byte); REAM_SEVERAL_COPIES;
 * REAM_NO_COPY; REAM_OPPOSITE; REAM_NOT_SETTLED; then for each failed step, oldest first: REAM_RANGE (a number past
 * the end of its plan, so every number where the plan is empty); REAM_ZERO_FAILED (that of a zero step);
 * REAM_NO_TARGET. image, status, wanted and failed are never changed.
 */
REAM_MUST_CHECK
uint64_t ream_update_plan(uint64_t n, uint64_t size, const uint8_t *image, size_t image_len,
			  const uint8_t *status, size_t status_len, const uint8_t *wanted, size_t wanted_len,
			  const uint8_t *failed, size_t failed_len, uint8_t *steps, size_t steps_len);

/*
 * Plans the recovery of a pair, settled or not.
 *
 *	n	the number of blocks, N
 *	size	the number of region blocks
 *	image	size * P * 2,112 bytes, the region's pages
 *	status	size * P bytes, how each of them was read
 *	failed	any number of bytes: as of ream_update_plan()
 *	steps	64 bytes, out: as of ream_update_plan()
 *
 * Of two good copies the newer is the one whose version is 1 to 127 ahead of the other's, counted modulo
 * 256: 0 is newer than 255, and 128 is newer than 127.
 *
 *	found				planned, with its number of steps and its version
 *	a settled pair			nothing: 0 steps, the pair's version
 *	both good, one newer		erase the older's block and write the newer's table there, as the
 *					older's kind: P + 1 steps, the newer's version
 *	both good, versions equal,	an update to the AND of both: 2P + 2 steps, the versions' plus 1
 *	  bitmaps different
 *	one kind alone good		erase the highest block that neither holds the good copy nor is
 *					readable as bad and write the missing kind there: P + 1 steps, the
 *					good copy's version
 *
 * For each failed step the plan becomes another one, as that of an update does.
 *
 * An answered call gives the plan's version (bits 8-15) and its number of steps (bits 16-23):
 * ream_version(), ream_step_count().
 *
 * Refuses, in this order: REAM_RANGE (n or size); REAM_LENGTH; REAM_RANGE (a status byte); REAM_SEVERAL_COPIES;
 * REAM_NO_COPY; REAM_OPPOSITE; REAM_NO_TARGET; then for each failed step, oldest first: REAM_RANGE (a number past the
 * end of its plan, so every number where the plan is empty); REAM_ZERO_FAILED (that of a zero step);
 * REAM_NO_TARGET. image, status and failed are never changed.
 */
REAM_MUST_CHECK
uint64_t ream_recovery_plan(uint64_t n, uint64_t size, const uint8_t *image, size_t image_len,
			    const uint8_t *status, size_t status_len, const uint8_t *failed, size_t failed_len,
			    uint8_t *steps, size_t steps_len);

/*
 * The page that a step of an update's plan writes.
 *
 *	n, size, image, status, wanted, failed
 *		as ream_update_plan() was called with: the snapshot that the first plan was made from, not the
 *		region as it is by now, and the failed steps that led to the plan in hand
 *	step	the step's number in the plan in hand, from 0
 *	page	2,112 bytes, out: the page's data, then its OOB
 *
 * The data is the page's part of the new table, with FF after the bitmap's end. In the OOB stand the signature
 * of the copy that the step belongs to (14-17) and the plan's version (18); all other OOB bytes are FF.
 *
 * Refuses, in this order: what ream_update_plan() refuses; REAM_RANGE (a step past the plan's end, or of an erase or
 * a zero step, so every step of an empty plan). image, status, wanted and failed are never changed.
 */
REAM_MUST_CHECK
uint64_t ream_update_page(uint64_t n, uint64_t size, const uint8_t *image, size_t image_len,
			  const uint8_t *status, size_t status_len, const uint8_t *wanted, size_t wanted_len,
			  const uint8_t *failed, size_t failed_len, uint64_t step, uint8_t *page, size_t page_len);

/*
 * The page that a step of a recovery's plan writes.
 *
 *	n, size, image, status, failed
 *		as ream_recovery_plan() was called with: the snapshot that the first plan was made from, not the
 *		region as it is by now, and the failed steps that led to the plan in hand
 *	step	the step's number in the plan in hand, from 0
 *	page	2,112 bytes, out: as of ream_update_page(), with the table that the recovery keeps
 *
 * Refuses, in this order: what ream_recovery_plan() refuses; REAM_RANGE (a step past the plan's end, or of an erase
 * or a zero step, so every step of an empty plan). image, status and failed are never changed.
 */
REAM_MUST_CHECK
uint64_t ream_recovery_page(uint64_t n, uint64_t size, const uint8_t *image, size_t image_len,
			    const uint8_t *status, size_t status_len, const uint8_t *failed, size_t failed_len,
			    uint64_t step, uint8_t *page, size_t page_len);

/*
 * A page of a copy of any table, as it is written: for a chip's first primary, which no plan writes.
 *
 *	n	the number of blocks, N
 *	size	the number of region blocks; it is judged, and changes nothing else here
 *	bitmap	N/4 bytes, the table
 *	kind	one of enum ream_copy
 *	version	0 to 255
 *	number	the page's number in the copy, 0 to P - 1
 *	page	2,112 bytes, out: as of ream_update_page(), with this table, kind and version
 *
 * Refuses, in this order: REAM_RANGE (n or size); REAM_LENGTH; REAM_RANGE (kind, version or number). bitmap is never
 * changed.
 */
REAM_MUST_CHECK
uint64_t ream_table_page(uint64_t n, uint64_t size, const uint8_t *bitmap, size_t bitmap_len, uint64_t kind,
			 uint64_t version, uint64_t number, uint8_t *page, size_t page_len);

#ifdef __cplusplus
}
#endif

/* The refusal of an answer: one of enum ream_refusal_number. */
static inline unsigned ream_refusal(uint64_t answer)
{
	return (unsigned)(answer & 0xFF);
}

/* 1 where the call was answered, 0 where it was refused. */
static inline int ream_ok(uint64_t answer)
{
	return ream_refusal(answer) == REAM_OK;
}

/* The detail of a refused call: enum ream_bad_block, enum ream_half, a boot number, or 0. */
static inline unsigned ream_detail(uint64_t answer)
{
	return (unsigned)(answer >> 8 & 0xFFFFFF);
}

/* 1 for each of the three refusals of a spare whose magic is not 56 hex, which were one before 5.0; else 0. */
static inline int ream_not_ours(unsigned refusal)
{
	return refusal >= REAM_ERASED && refusal <= REAM_NOT_OURS_REPAIRED;
}

/* The number of mapped blocks, in the answer of ream_boot_map(). */
static inline unsigned ream_mapped_count(uint64_t answer)
{
	return (unsigned)(answer >> 8 & 0xFFFF);
}

/* The number of blocks to be erased, in the answer of ream_boot_map(). */
static inline unsigned ream_erased_count(uint64_t answer)
{
	return (unsigned)(answer >> 24 & 0xFFFF);
}

/* The version in the answer of ream_table_read() or of planning. */
static inline unsigned ream_version(uint64_t answer)
{
	return (unsigned)(answer >> 8 & 0xFF);
}

/* The chip block of the primary, in the answer of ream_table_read(). */
static inline unsigned ream_primary_block(uint64_t answer)
{
	return (unsigned)(answer >> 16 & 0xFFFF);
}

/* The chip block of the mirror, in the answer of ream_table_read(). */
static inline unsigned ream_mirror_block(uint64_t answer)
{
	return (unsigned)(answer >> 32 & 0xFFFF);
}

/* The number of steps, in the answer of planning. */
static inline unsigned ream_step_count(uint64_t answer)
{
	return (unsigned)(answer >> 16 & 0xFF);
}

/* One line of text for a refusal. */
static inline const char *ream_refusal_text(unsigned refusal)
{
	switch (refusal) {
	case REAM_OK:
		return "answered";
	case REAM_LENGTH:
		return "a lent buffer has the wrong length";
	case REAM_RANGE:
		return "a number is outside its range";
	case REAM_BAD_BLOCK:
		return "the block is marked bad";
	case REAM_TAG:
		return "the tag byte is not within one bit of a tag";
	case REAM_ERASED:
		return "the spare is erased, all FF";
	case REAM_NOT_OURS:
		return "the magic is not 56 hex, in a word that needed no repair";
	case REAM_NOT_OURS_REPAIRED:
		return "the magic is not 56 hex, in a word that was repaired";
	case REAM_UNREPAIRABLE:
		return "a half of the page is not repairable";
	case REAM_NO_COPY:
		return "there is no good primary and no good mirror";
	case REAM_SEVERAL_COPIES:
		return "there are two or more good copies of one kind";
	case REAM_OPPOSITE:
		return "the versions of primary and mirror are 128 apart";
	case REAM_NOT_SETTLED:
		return "the pair of tables is not settled";
	case REAM_NO_TARGET:
		return "there is no block to write a copy to";
	case REAM_ZERO_FAILED:
		return "a step that writes zeros failed";
	case REAM_BOOT_SET:
		return "a boot number is missing, or its blocks do not fit together";
	default:
		return "unknown refusal";
	}
}

/* What reading a spare or a page gives, as numbers. */
struct ream_fields {
	uint8_t status;		/* as stored */
	uint8_t tag;		/* one of enum ream_tag */
	uint32_t path;
	uint32_t count;
	uint8_t repairs;
};

/* Four bytes, big endian, as a number. */
static inline uint32_t ream_big_endian(const uint8_t *bytes)
{
	return (uint32_t)bytes[0] << 24 | (uint32_t)bytes[1] << 16 | (uint32_t)bytes[2] << 8 | bytes[3];
}

/* The numbers in the 11 bytes that reading filled. */
static inline struct ream_fields ream_fields_get(const uint8_t bytes[REAM_FIELDS_SIZE])
{
	struct ream_fields fields;

	fields.status = bytes[0];
	fields.tag = bytes[1];
	fields.path = ream_big_endian(bytes + 2);
	fields.count = ream_big_endian(bytes + 6);
	fields.repairs = bytes[10];
	return fields;
}

/* The boot number in the path of a boot block's first or last page. */
static inline uint32_t ream_boot_number(uint32_t path)
{
	return path / 4;
}

/* The generation in such a path, 0 to 3. */
static inline unsigned ream_boot_generation(uint32_t path)
{
	return path % 4;
}

/* The chip block at a place (from 0) of a list that ream_boot_map() filled. */
static inline unsigned ream_boot_block(const uint8_t *list, size_t place)
{
	return (unsigned)list[REAM_BOOT_BLOCK_SIZE * place] << 8 | list[REAM_BOOT_BLOCK_SIZE * place + 1];
}

/* The pages that a copy of the table fills, P, on a chip of n blocks; 0 where n is not a number of blocks
 * that the large chip can have. */
static inline unsigned ream_table_pages(uint64_t n)
{
	if (n < REAM_BLOCKS_MIN || n > REAM_BLOCKS_MAX || n % 4 != 0)
		return 0;
	return (unsigned)((n / 4 + REAM_LARGE_DATA_SIZE - 1) / REAM_LARGE_DATA_SIZE);
}

/* 1 where the entries take a chip of n blocks with a region of size blocks, else 0. */
static inline int ream_region_fits(uint64_t n, uint64_t size)
{
	return ream_table_pages(n) != 0 && size >= REAM_REGION_BLOCKS_MIN && size <= REAM_REGION_BLOCKS_MAX
	       && n >= 2 * size;
}

/*
 * The bytes of the buffers that the entries take for a chip of n blocks with a region of size blocks; 0 where
 * these are refused. Those of marks and of a bitmap depend on n alone.
 */
static inline size_t ream_image_size(uint64_t n, uint64_t size)
{
	return ream_region_fits(n, size) ? (size_t)size * ream_table_pages(n) * REAM_LARGE_PAGE_SIZE : 0;
}

static inline size_t ream_status_size(uint64_t n, uint64_t size)
{
	return ream_region_fits(n, size) ? (size_t)size * ream_table_pages(n) : 0;
}

static inline size_t ream_marks_size(uint64_t n)
{
	return ream_table_pages(n) == 0 ? 0 : (size_t)(2 * n);
}

static inline size_t ream_bitmap_size(uint64_t n)
{
	return ream_table_pages(n) == 0 ? 0 : (size_t)(n / 4);
}

/* The entry of a block (0 to N - 1) in a bitmap: one of enum ream_entry. */
static inline unsigned ream_entry_get(const uint8_t *bitmap, uint64_t block)
{
	return (unsigned)bitmap[block / 4] >> 2 * (block % 4) & 3;
}

/* Sets the entry of a block (0 to N - 1) in a bitmap, to one of enum ream_entry. */
static inline void ream_entry_set(uint8_t *bitmap, uint64_t block, unsigned entry)
{
	const unsigned low = 2 * (unsigned)(block % 4);

	bitmap[block / 4] = (uint8_t)((bitmap[block / 4] & ~(3u << low)) | (entry & 3) << low);
}

/* A step of a plan, as numbers. */
struct ream_step {
	uint8_t kind;		/* one of enum ream_step_kind */
	uint16_t block;		/* chip block, N - size to N - 1 */
	uint8_t page;		/* 0 to P - 1; 0 for an erase and for a zero step */
};

/* The numbers in the four bytes of a step. Step i of a plan starts at byte REAM_STEP_SIZE * i of its steps. */
static inline struct ream_step ream_step_get(const uint8_t bytes[REAM_STEP_SIZE])
{
	struct ream_step step;

	step.kind = bytes[0];
	step.block = (uint16_t)(bytes[1] << 8 | bytes[2]);
	step.page = bytes[3];
	return step;
}

/*
 * The entries again, for callers whose pointers may be null: a null pointer is lent as a buffer of no
 * bytes, whatever the length beside it says. So it is refused as a wrong length is, in the same place
 * of the order; only failed may have no bytes, so a null pointer there says that no step failed, and so may
 * the buffers of ream_boot_map() where number is 0.
 */
REAM_MUST_CHECK
static inline uint64_t ream_half_code_checked(const uint8_t *half, size_t half_len,
					      uint8_t *code, size_t code_len)
{
	uint8_t none[1] = { 0 };

	return ream_half_code(half ? half : none, half ? half_len : 0,
			      code ? code : none, code ? code_len : 0);
}

REAM_MUST_CHECK
static inline uint64_t ream_spare_write_checked(const uint8_t *data, size_t data_len,
						uint64_t tag, uint64_t path, uint64_t count,
						uint8_t *spare, size_t spare_len)
{
	uint8_t none[1] = { 0 };

	return ream_spare_write(data ? data : none, data ? data_len : 0, tag, path, count,
				spare ? spare : none, spare ? spare_len : 0);
}

REAM_MUST_CHECK
static inline uint64_t ream_spare_read_checked(const uint8_t *spare, size_t spare_len,
					       uint8_t *fields, size_t fields_len)
{
	uint8_t none[1] = { 0 };

	return ream_spare_read(spare ? spare : none, spare ? spare_len : 0,
			       fields ? fields : none, fields ? fields_len : 0);
}

REAM_MUST_CHECK
static inline uint64_t ream_page_read_checked(uint8_t *data, size_t data_len,
					      const uint8_t *spare, size_t spare_len,
					      uint8_t *fields, size_t fields_len)
{
	uint8_t none[1] = { 0 };

	return ream_page_read(data ? data : none, data ? data_len : 0,
			      spare ? spare : none, spare ? spare_len : 0,
			      fields ? fields : none, fields ? fields_len : 0);
}

REAM_MUST_CHECK
static inline uint64_t ream_boot_map_checked(uint64_t number, const uint8_t *spares, size_t spares_len,
					     uint8_t *mapped, size_t mapped_len, uint8_t *erased, size_t erased_len)
{
	uint8_t none[1] = { 0 };

	return ream_boot_map(number, spares ? spares : none, spares ? spares_len : 0,
			     mapped ? mapped : none, mapped ? mapped_len : 0,
			     erased ? erased : none, erased ? erased_len : 0);
}

REAM_MUST_CHECK
static inline uint64_t ream_first_bitmap_checked(uint64_t n, uint64_t size, const uint8_t *marks, size_t marks_len,
						 uint8_t *bitmap, size_t bitmap_len)
{
	uint8_t none[1] = { 0 };

	return ream_first_bitmap(n, size, marks ? marks : none, marks ? marks_len : 0,
				 bitmap ? bitmap : none, bitmap ? bitmap_len : 0);
}

REAM_MUST_CHECK
static inline uint64_t ream_table_read_checked(uint64_t n, uint64_t size, const uint8_t *image, size_t image_len,
					       const uint8_t *status, size_t status_len,
					       uint8_t *bitmap, size_t bitmap_len)
{
	uint8_t none[1] = { 0 };

	return ream_table_read(n, size, image ? image : none, image ? image_len : 0,
			       status ? status : none, status ? status_len : 0,
			       bitmap ? bitmap : none, bitmap ? bitmap_len : 0);
}

REAM_MUST_CHECK
static inline uint64_t ream_update_plan_checked(uint64_t n, uint64_t size, const uint8_t *image, size_t image_len,
						const uint8_t *status, size_t status_len,
						const uint8_t *wanted, size_t wanted_len,
						const uint8_t *failed, size_t failed_len,
						uint8_t *steps, size_t steps_len)
{
	uint8_t none[1] = { 0 };

	return ream_update_plan(n, size, image ? image : none, image ? image_len : 0,
				status ? status : none, status ? status_len : 0,
				wanted ? wanted : none, wanted ? wanted_len : 0,
				failed ? failed : none, failed ? failed_len : 0,
				steps ? steps : none, steps ? steps_len : 0);
}

REAM_MUST_CHECK
static inline uint64_t ream_recovery_plan_checked(uint64_t n, uint64_t size, const uint8_t *image, size_t image_len,
						  const uint8_t *status, size_t status_len,
						  const uint8_t *failed, size_t failed_len,
						  uint8_t *steps, size_t steps_len)
{
	uint8_t none[1] = { 0 };

	return ream_recovery_plan(n, size, image ? image : none, image ? image_len : 0,
				  status ? status : none, status ? status_len : 0,
				  failed ? failed : none, failed ? failed_len : 0,
				  steps ? steps : none, steps ? steps_len : 0);
}

REAM_MUST_CHECK
static inline uint64_t ream_update_page_checked(uint64_t n, uint64_t size, const uint8_t *image, size_t image_len,
						const uint8_t *status, size_t status_len,
						const uint8_t *wanted, size_t wanted_len,
						const uint8_t *failed, size_t failed_len, uint64_t step,
						uint8_t *page, size_t page_len)
{
	uint8_t none[1] = { 0 };

	return ream_update_page(n, size, image ? image : none, image ? image_len : 0,
				status ? status : none, status ? status_len : 0,
				wanted ? wanted : none, wanted ? wanted_len : 0,
				failed ? failed : none, failed ? failed_len : 0, step,
				page ? page : none, page ? page_len : 0);
}

REAM_MUST_CHECK
static inline uint64_t ream_recovery_page_checked(uint64_t n, uint64_t size, const uint8_t *image, size_t image_len,
						  const uint8_t *status, size_t status_len,
						  const uint8_t *failed, size_t failed_len, uint64_t step,
						  uint8_t *page, size_t page_len)
{
	uint8_t none[1] = { 0 };

	return ream_recovery_page(n, size, image ? image : none, image ? image_len : 0,
				  status ? status : none, status ? status_len : 0,
				  failed ? failed : none, failed ? failed_len : 0, step,
				  page ? page : none, page ? page_len : 0);
}

REAM_MUST_CHECK
static inline uint64_t ream_table_page_checked(uint64_t n, uint64_t size, const uint8_t *bitmap, size_t bitmap_len,
					       uint64_t kind, uint64_t version, uint64_t number,
					       uint8_t *page, size_t page_len)
{
	uint8_t none[1] = { 0 };

	return ream_table_page(n, size, bitmap ? bitmap : none, bitmap ? bitmap_len : 0, kind, version, number,
			       page ? page : none, page ? page_len : 0);
}

#endif
