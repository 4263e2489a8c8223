/* Trials of lengths. */
#include "lengths.h"

#include "reamsickle.h"

/* Makes the call that is set up, with lengths told in place of the named ones. */
static void expect_judged(struct test *test, const size_t *told)
{
	const enum entry_index index = test->call.index;
	bool as_named = true;

	for (unsigned i = 0; i < entries[index].buffers; i++) {
		if (told[i] != test->call.len[i] && has_length(index, i))
			as_named = false;
		test->call.len[i] = has_length(index, i) ? told[i] : lent_held(told[i]);
	}
	call_compare(test);
	expect(test, (ream_refusal(test->answer) == REAM_LENGTH) == !as_named,
	       "refusal 1 comes exactly with a wrong length");
}

/* The length of buffer i told as `len`, the others as named. */
static void try_length(struct test *test, enum entry_index index, set_up_call *set_up, const void *inputs,
		       unsigned i, size_t len)
{
	size_t told[MOST_BUFFERS];

	set_up(test, index, inputs);
	for (unsigned k = 0; k < entries[index].buffers; k++)
		told[k] = test->call.len[k];
	told[i] = len;
	expect_judged(test, told);
}

/* Lengths far from the named one, and those that a cut to 32 bits or to 63 would take for it. */
static void try_far_lengths(struct test *test, enum entry_index index, set_up_call *set_up, const void *inputs,
			    unsigned i, size_t named)
{
	const size_t far[] = {
		1024, 2048, 2112, 4096, named - 1, named, named + 1, named / 2, named * 2, named * 4,
		named + 64, named + 256, named + 2112, named + 65536, named + ((size_t)1 << 32),
		named + ((size_t)1 << 63), (size_t)1 << 32, SIZE_MAX,
	};

	for (unsigned k = 0; k < sizeof(far) / sizeof(far[0]); k++)
		try_length(test, index, set_up, inputs, i, far[k]);
}

/* One buffer's length wrong, the others as named. */
static void try_each_length(struct test *test, enum entry_index index, set_up_call *set_up, const void *inputs)
{
	for (unsigned i = 0; i < entries[index].buffers; i++) {
		set_up(test, index, inputs);
		try_far_lengths(test, index, set_up, inputs, i, test->call.len[i]);
		for (size_t len = 0; len <= 600; len++)
			if (!left_out(test))
				try_length(test, index, set_up, inputs, i, len);
	}
}

/* Every buffer's length as named, 0, one less or one more. */
static void try_lengths_together(struct test *test, enum entry_index index, set_up_call *set_up,
				 const void *inputs)
{
	const unsigned buffers = entries[index].buffers;
	unsigned choices = 1;

	for (unsigned i = 0; i < buffers; i++)
		choices *= 4;
	for (unsigned choice = 0; choice < choices; choice++) {
		size_t told[MOST_BUFFERS];
		unsigned rest = choice;

		if (left_out(test))
			continue;
		set_up(test, index, inputs);
		for (unsigned i = 0; i < buffers; i++) {
			const size_t named = test->call.len[i];
			const size_t lengths[4] = { named, 0, named - 1, named + 1 };

			told[i] = lengths[rest % 4];
			rest /= 4;
		}
		expect_judged(test, told);
	}
}

void try_lengths(struct test *test, enum entry_index index, set_up_call *set_up, const void *inputs)
{
	try_each_length(test, index, set_up, inputs);
	try_lengths_together(test, index, set_up, inputs);
}
