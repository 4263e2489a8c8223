/* Buffers between pages of memory that nobody may touch. */
#define _DEFAULT_SOURCE

#include "fence.h"

#include <string.h>
#include <sys/mman.h>
#include <unistd.h>

bool fence_make(struct fence *fence, size_t room)
{
	const size_t page = (size_t)sysconf(_SC_PAGESIZE);
	const size_t rounded = (room + page - 1) / page * page;
	uint8_t *all = mmap(NULL, rounded + 2 * page, PROT_NONE, MAP_PRIVATE | MAP_ANONYMOUS, -1, 0);

	if (all == MAP_FAILED)
		return false;
	fence->first = all + page;
	fence->end = fence->first + rounded;
	return mprotect(fence->first, rounded, PROT_READ | PROT_WRITE) == 0;
}

uint8_t *fence_lend(const struct fence *fence, const uint8_t *bytes, size_t len, bool at_end)
{
	uint8_t *start = at_end ? fence->end - len : fence->first;

	memcpy(start, bytes, len);
	return start;
}
