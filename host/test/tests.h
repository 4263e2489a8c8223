/*
 * The trials of the host test, a file for each family of entries.
 *
 * Agreement with the reference is not all. Where document 01 fixes the outcome of a trial in words, the outcome is
 * checked by itself too.
 */
#ifndef TESTS_H
#define TESTS_H

#include "calls.h"
#include "scenes.h"

/* The small chip's entries, on good, damaged and senseless pages (small_pages.h). */
void test_half_code(struct test *test);
void test_spare_write(struct test *test);
void test_spare_read(struct test *test);
void test_page_read(struct test *test);

/* Blocks of the small chip, made to order (boots.h). */
void test_boot_map(struct test *test);

/* The large chip's, on regions that are settled, damaged in every way or senseless (scenes.h). */
void test_first_bitmap(struct test *test, struct scene *scene);
void test_pair(struct test *test, struct scene *scene);
void test_sizes(struct test *test, struct scene *scene);
void test_update(struct test *test, struct scene *scene);
void test_steps(struct test *test, struct scene *scene);
void test_failed(struct test *test, struct scene *scene);
void test_table_page(struct test *test, struct scene *scene);
void test_first_pair(struct test *test, struct scene *scene);
void test_drawn(struct test *test, struct scene *scene);

/* Both. */
void test_header(struct test *test, struct scene *scene);
void test_arguments(struct test *test, struct scene *scene);

#endif
