/*
 * The entries of the library once more, written straight from documents 01 and 02 for the host programs to
 * compare with: the small chip's in small.c and boot.c, the large chip's in large.c and failed.c. Parameters
 * and answers are those of the entries in include/reamsickle.h, the manual, which alone has ream_table_page.
 */
#ifndef REFERENCE_H
#define REFERENCE_H

#include <stddef.h>
#include <stdint.h>

uint64_t ref_half_code(const uint8_t *half, size_t half_len, uint8_t *code, size_t code_len);

uint64_t ref_spare_write(const uint8_t *data, size_t data_len, uint64_t tag, uint64_t path, uint64_t count,
			 uint8_t *spare, size_t spare_len);

uint64_t ref_spare_read(const uint8_t *spare, size_t spare_len, uint8_t *fields, size_t fields_len);

uint64_t ref_page_read(uint8_t *data, size_t data_len, const uint8_t *spare, size_t spare_len,
		       uint8_t *fields, size_t fields_len);

uint64_t ref_boot_map(uint64_t number, const uint8_t *spares, size_t spares_len, uint8_t *mapped, size_t mapped_len,
		      uint8_t *erased, size_t erased_len);

uint64_t ref_first_bitmap(uint64_t n, uint64_t size, const uint8_t *marks, size_t marks_len, uint8_t *bitmap,
			  size_t bitmap_len);

uint64_t ref_table_read(uint64_t n, uint64_t size, const uint8_t *image, size_t image_len, const uint8_t *status,
			size_t status_len, uint8_t *bitmap, size_t bitmap_len);

uint64_t ref_update_plan(uint64_t n, uint64_t size, const uint8_t *image, size_t image_len, const uint8_t *status,
			 size_t status_len, const uint8_t *wanted, size_t wanted_len, const uint8_t *failed,
			 size_t failed_len, uint8_t *steps, size_t steps_len);

uint64_t ref_recovery_plan(uint64_t n, uint64_t size, const uint8_t *image, size_t image_len, const uint8_t *status,
			   size_t status_len, const uint8_t *failed, size_t failed_len, uint8_t *steps,
			   size_t steps_len);

uint64_t ref_update_page(uint64_t n, uint64_t size, const uint8_t *image, size_t image_len, const uint8_t *status,
			 size_t status_len, const uint8_t *wanted, size_t wanted_len, const uint8_t *failed,
			 size_t failed_len, uint64_t step, uint8_t *page, size_t page_len);

uint64_t ref_recovery_page(uint64_t n, uint64_t size, const uint8_t *image, size_t image_len, const uint8_t *status,
			   size_t status_len, const uint8_t *failed, size_t failed_len, uint64_t step,
			   uint8_t *page, size_t page_len);

uint64_t ref_table_page(uint64_t n, uint64_t size, const uint8_t *bitmap, size_t bitmap_len, uint64_t kind,
			uint64_t version, uint64_t number, uint8_t *page, size_t page_len);

#endif
