#!/usr/bin/env bash
# Tries an installation: what `make install` puts under a prefix serves C and C++ programs, and `make uninstall` leaves
# no file of it. The header stands alone and gives no warning, but for an answer that is dropped; in a kernel it needs
# no other header than the kernel's types, and for a host that is not served it does not compile. Programs are built with the flags of the pkg-config file, which are read from
# the file itself where pkg-config is missing. A staged installation is not where its pkg-config file says, so that no
# program is built with it.
#
#	host/test/test_install.sh PREFIX [DESTDIR]
#
# CC and CXX may name the compilers to use.
set -euo pipefail
cd "$(dirname "${BASH_SOURCE[0]}")/../.."

# A caller's make flags (-n, -j) have no say here.
unset MAKEFLAGS MFLAGS

if [ $# -lt 1 ] || [ $# -gt 2 ]; then
	echo "usage: host/test/test_install.sh PREFIX [DESTDIR]" >&2
	exit 2
fi
prefix=$1
destdir=${2:-}
read -ra cc <<< "${CC:-cc}"
read -ra cxx <<< "${CXX:-c++}"
flags=()
cflags=()
strict=(-Wall -Wextra -pedantic -Werror -Wconversion -Wsign-conversion -Wshadow)

run_make() {
	make --no-print-directory -s "$1" PREFIX="$prefix" DESTDIR="$destdir"
}

fail() {
	echo "test_install: $1, with PREFIX=$prefix DESTDIR=$destdir" >&2
	exit 1
}

# The flags that the pkg-config file gives, as words; cflags are those for compiling alone.
read_flags() {
	local text flag
	if command -v pkg-config > /dev/null; then
		text=$(PKG_CONFIG_PATH=$root/lib/pkgconfig pkg-config --cflags --libs reamsickle)
	else
		text=$(sed -n -e "s|\${includedir}|$full/include|" -e "s|\${libdir}|$full/lib|" \
			-e 's/^Cflags: //p' -e 's/^Libs: //p' "$root/lib/pkgconfig/reamsickle.pc" | tr '\n' ' ')
	fi
	eval "flags=($text)"
	for flag in "${flags[@]}"; do
		[[ $flag != -I* ]] || cflags+=("$flag")
	done
}

# Answers that are dropped, of an entry and of its checked form: each is warned of. They are those of dropped.c.
try_dropped() {
	if "$@" -Werror -c -o dropped.o dropped.c "${cflags[@]}" 2> dropped.txt; then
		fail "no answer that is dropped is warned of by $1"
	fi
	[ "$(grep -c '\[-Werror.*unused-result\]' dropped.txt)" = 2 ] ||
		fail "other than two dropped answers are warned of by $1: $(cat dropped.txt)"
}

# The header in a kernel: linux/types.h, here as far as the header asks for it, is all there is to include.
try_kernel() {
	mkdir linux
	cat > linux/types.h <<- 'END'
		typedef __UINT8_TYPE__ uint8_t;
		typedef __UINT16_TYPE__ uint16_t;
		typedef __UINT32_TYPE__ uint32_t;
		typedef __UINT64_TYPE__ uint64_t;
		typedef __SIZE_TYPE__ size_t;
	END
	"${cc[@]}" -std=gnu11 "${strict[@]}" -ffreestanding -nostdinc -D__KERNEL__ -I. -fsyntax-only alone.c \
		"${cflags[@]}"
}

# On a host that is not served the header does not compile, with these words in the error.
refuse_host() { # WORDS FLAGS..
	local words=$1
	shift
	if "${cc[@]}" "$@" -fsyntax-only alone.c "${cflags[@]}" 2> refused.txt; then
		fail "the header compiles with $*"
	fi
	grep -q "$words" refused.txt || fail "with $* there is another error: $(cat refused.txt)"
}

try_other_hosts() {
	: > empty.c
	if "${cc[@]}" -m32 -ffreestanding -fsyntax-only empty.c 2> /dev/null; then
		refuse_host ream_needs_a_host_with_64_bits -m32 -ffreestanding
	fi
	refuse_host 'for little-endian hosts' -U__BYTE_ORDER__ -D__BYTE_ORDER__=__ORDER_BIG_ENDIAN__
}

# The header alone, a small program and the example, built elsewhere than here, so that no relative path serves.
try_programs() (
	local example=$PWD/host/example/example.c
	cd "$work"
	echo '#include <reamsickle.h>' > alone.c
	cat > small.c <<- 'END'
		#include <reamsickle.h>

		#if REAM_LIBRARY_VERSION_NUMBER < 20000
		#error "an older library"
		#endif

		int main(void)
		{
			const uint64_t half = ream_half_code_checked(NULL, 0, NULL, 0);
			const uint64_t chip = ream_table_read_checked(8, REAM_REGION_BLOCKS_MAX, NULL, 0, NULL, 0, NULL, 0);

			return ream_refusal(half) == REAM_LENGTH && ream_refusal(chip) == REAM_RANGE ? 0 : 1;
		}
	END
	cat > dropped.c <<- 'END'
		#include <reamsickle.h>

		void drop(const uint8_t *half, uint8_t *code);

		void drop(const uint8_t *half, uint8_t *code)
		{
			ream_half_code(half, REAM_HALF_SIZE, code, REAM_HALF_CODE_SIZE);
			ream_half_code_checked(half, REAM_HALF_SIZE, code, REAM_HALF_CODE_SIZE);
			if (!ream_ok(ream_half_code(half, REAM_HALF_SIZE, code, REAM_HALF_CODE_SIZE)))
				code[0] = 0;
		}
	END
	"${cc[@]}" -std=c99 "${strict[@]}" -fsyntax-only alone.c "${cflags[@]}"
	"${cc[@]}" -std=c99 "${strict[@]}" -o small_c small.c "${flags[@]}"
	./small_c
	try_dropped "${cc[@]}" -std=c99
	try_kernel
	try_other_hosts
	"${cc[@]}" -std=c99 -Wall -Wextra -pedantic -o example "$example" "${flags[@]}"
	./example > example.out
	if command -v "${cxx[0]}" > /dev/null; then
		"${cxx[@]}" -std=c++17 "${strict[@]}" -fsyntax-only -x c++ alone.c "${cflags[@]}"
		"${cxx[@]}" -std=c++17 "${strict[@]}" -o small_cxx -x c++ small.c "${flags[@]}"
		./small_cxx
		try_dropped "${cxx[@]}" -std=c++17 -x c++
	else
		echo 'test_install: there is no C++ compiler, so C++ is not tried'
	fi
)

case $prefix in
/*) full=$prefix ;;
*) full=$PWD/$prefix ;;
esac
root=$destdir$full
work=$(mktemp -d)
trap 'rm -rf "$work"' EXIT

run_make install
for file in include/reamsickle.h lib/libreamsickle.a lib/pkgconfig/reamsickle.pc bin/ream share/man/man1/ream.1; do
	[ -f "$root/$file" ] || fail "there is no $file"
done
[ "$(sed -n 's/^prefix=//p' "$root/lib/pkgconfig/reamsickle.pc")" = "$full" ] || fail "the file's prefix is not $full"
version=$(sed -n 's/^#define REAM_LIBRARY_VERSION "\(.*\)"/\1/p' "$root/include/reamsickle.h")
[ "$(sed -n 's/^Version: //p' "$root/lib/pkgconfig/reamsickle.pc")" = "$version" ] ||
	fail "the file's version is not the header's, $version"
"$root/bin/ream" --version > /dev/null
if [ -z "$destdir" ]; then
	read_flags
	try_programs
fi
run_make uninstall
[ -z "$(find "$root" -type f)" ] || fail "uninstalling leaves a file"
echo "test_install: installed, tried and uninstalled with PREFIX=$prefix DESTDIR=$destdir"
