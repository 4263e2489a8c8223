#!/bin/sh
# Reads the code of an archive for kernels.
#
#	cross/test_kernel.sh FOLDER
#
# FOLDER is target/x86_64-kernel or target/aarch64-kernel. Its archive has to be code that a kernel can run at any time:
# general registers alone, and on AArch64 not x18, no floating point, nothing below the stack pointer, no jump or call
# through a register or a table, no data, and of other symbols memcpy and memset at most.
#
# That nothing lies below the stack pointer (no red zone) is looked for in two ways: no operand has the stack pointer
# with a negative offset, and every function of the module that clang was handed has the attribute noredzone. An
# address that is made of the stack pointer in several steps is not seen in the code. AArch64 Linux has no red zone, so
# there the operands alone are looked at.
set -eu

if [ $# -ne 1 ]; then
	echo "usage: cross/test_kernel.sh FOLDER" >&2
	exit 2
fi
folder=$1
archive=$folder/libreamsickle.a
work=$(mktemp -d)
trap 'rm -rf "$work"' EXIT
failures=0

fail() {
	echo "test_kernel: $archive $1" >&2
	failures=$((failures + 1))
}

# No instruction matches the expression.
none() { # WHAT EXPRESSION
	if grep -E -e "$2" "$work/code" > "$work/found"; then
		fail "has $(wc -l < "$work/found") instructions with $1, as: $(head -n 1 "$work/found" | tr '\t' ' ')"
	fi
}

case ${folder##*/} in
x86_64-kernel)
	tools=
	register='%([xyz]?mm|st|k)[0-7(]|%st'
	# All instructions of the x87 unit, and no others, begin with f.
	floating='^(f|emms|cvt|ldmxcsr|stmxcsr|xsave|xrstor|v[a-z])'
	below='-0x[0-9a-f]+\(%[re]sp'
	indirect='^(notrack |bnd )?(jmp|call)[a-z]* +\*'
	relocations='R_X86_64_(PLT32|PC32)'
	;;
aarch64-kernel)
	tools=${AARCH64:-aarch64-linux-gnu-}
	# Linux keeps its shadow call stack in x18, U-Boot its global data.
	register='[ ,{[]([vqdshb][0-9]+(\.|,|\}|$)|[xw]18)'
	floating='^(f[a-z]|[su]cvtf|ld[1-4]|st[1-4])'
	below='\[sp, #-[0-9]+\]$'
	indirect='^(br|blr) '
	relocations='R_AARCH64_(CALL26|JUMP26|ADR_PREL_PG_HI21|ADD_ABS_LO12_NC|LDST[0-9]+_ABS_LO12_NC)'
	;;
*)
	fail 'is for no kernel'
	exit 2
	;;
esac

# The instructions alone, without addresses, names and remarks.
"${tools}objdump" -d --no-show-raw-insn "$archive" | grep -E '^ *[0-9a-f]+:' | sed -e 's/^ *[0-9a-f]*:[[:space:]]*//' \
	-e 's/[0-9a-f]* <.*//' -e 's/ *\(#\|\/\/\) .*//' -e 's/[[:space:]]\{1,\}/ /g' > "$work/code"
count=$(wc -l < "$work/code")
[ "$count" -gt 1000 ] || fail "has $count instructions only"

none 'a register that kernels keep for themselves' "$register"
none 'floating point' "$floating"
none 'an address below the stack pointer' "$below"
none 'a jump or call that is not direct' "$indirect"

"${tools}nm" -u "$archive" | sed -n 's/^ *U //p' | sort -u > "$work/needed"
! grep -Evx 'memcpy|memset' "$work/needed" || fail "needs these symbols: $(paste -sd ' ' "$work/needed")"
"${tools}readelf" -rW "$archive" | sed -n 's/.* \(R_[A-Z0-9_]*\) .*/\1/p' | sort -u > "$work/relocations"
! grep -Evx "$relocations" "$work/relocations" || fail 'has relocations that a kernel may not know'
"${tools}size" -t "$archive" | tail -n 1 > "$work/size"
[ "$(awk '{ print $2 + $3 }' "$work/size")" -eq 0 ] || fail 'has data'

if [ "${folder##*/}" = x86_64-kernel ]; then
	sed -n 's/^attributes \(#[0-9]*\) = { .*noredzone.*/\1/p' "$folder/module.ll" | sort > "$work/noredzone"
	grep '^define ' "$folder/module.ll" | sed 's/.* \(#[0-9]*\) {$/\1/' | sort -u > "$work/used"
	[ -z "$(comm -13 "$work/noredzone" "$work/used")" ] || fail 'has functions without noredzone'
fi

[ "$failures" -eq 0 ] || exit 1
echo "test_kernel: $archive: $count instructions with general registers alone; needs $(paste -sd ' ' "$work/needed")"
