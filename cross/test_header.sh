#!/bin/sh
# The header in a kernel: a driver in small is compiled as kernels compile, with no header but linux/types.h, of which a
# stand-in has what Linux's has, and linked with an archive for kernels. Together they need memcpy and memset at most.
#
#	cross/test_header.sh ARCHIVE COMPILER..
set -eu

if [ $# -lt 2 ]; then
	echo "usage: cross/test_header.sh ARCHIVE COMPILER.." >&2
	exit 2
fi
root=$(cd "$(dirname "$0")/.." && pwd)
archive=$1
shift
work=$(mktemp -d)
trap 'rm -rf "$work"' EXIT

mkdir "$work/linux"
cat > "$work/linux/types.h" << 'END'
#ifndef _LINUX_TYPES_H
#define _LINUX_TYPES_H
typedef unsigned char u8, uint8_t;
typedef unsigned short u16, uint16_t;
typedef unsigned int u32, uint32_t;
typedef unsigned long long u64, uint64_t;
typedef unsigned long size_t;
#endif
END
cat > "$work/driver.c" << 'END'
#include <reamsickle.h>

int driver_table(const u8 *image, const u8 *status, u8 *bitmap, u8 *page);

/* Reads the table of a chip of 1,024 blocks, and makes the page of a first primary where there is none. */
int driver_table(const u8 *image, const u8 *status, u8 *bitmap, u8 *page)
{
	const u64 n = 1024, size = REAM_REGION_BLOCKS_MIN;
	u64 answer = ream_table_read(n, size, image, ream_image_size(n, size), status, ream_status_size(n, size),
				     bitmap, ream_bitmap_size(n));

	if (ream_refusal(answer) == REAM_NO_COPY)
		answer = ream_table_page_checked(n, size, bitmap, ream_bitmap_size(n), REAM_PRIMARY, 0, 0, page,
						 REAM_LARGE_PAGE_SIZE);
	return ream_ok(answer) ? 0 : -(int)ream_refusal(answer);
}
END

strict='-Wall -Wextra -Werror -Wundef -Wstrict-prototypes -Wmissing-prototypes -Wdeclaration-after-statement -Wvla'
for dialect in gnu89 gnu11; do
	# shellcheck disable=SC2086
	"$@" -std=$dialect -O2 -D__KERNEL__ -ffreestanding -nostdinc -I"$work" -I"$root/include" $strict -fno-pic \
		-mgeneral-regs-only -c -o "$work/driver.o" "$work/driver.c"
	"$@" -nostdlib -no-pie -r -o "$work/linked.o" "$work/driver.o" "$archive"
	if nm -u "$work/linked.o" | sed -n 's/^ *U //p' | grep -Evx 'memcpy|memset' > "$work/needed"; then
		echo "test_header: with $archive a driver needs $(paste -sd ' ' "$work/needed")" >&2
		exit 1
	fi
done
echo "test_header: $archive: a driver compiles with linux/types.h alone, as gnu89 and as gnu11, and links"
