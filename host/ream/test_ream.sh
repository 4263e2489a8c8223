#!/bin/sh
# The test of the tool, ream: every command with good and with wrong input; its exit status, what it says and what it
# writes. A failed run must leave no file.
#
#	host/ream/test_ream.sh PROGRAM
set -u
LC_ALL=C
export LC_ALL

if [ $# -ne 1 ] || ! [ -x "$1" ]; then
	echo "usage: host/ream/test_ream.sh PROGRAM" >&2
	exit 2
fi
case $1 in
/*) ream=$1 ;;
*) ream=$PWD/$1 ;;
esac
root=$(cd "$(dirname "$0")/../.." && pwd)
manual=$root/man/ream.1
work=$(mktemp -d) || exit 2
trap 'rm -rf "$work"' EXIT
cd "$work" || exit 2
checks=0
failures=0

# ---- checks

skipped() { # PART: WHY
	echo "test_ream: not tried, $1"
}

check() { # NAME COMMAND..: the command succeeds
	checks=$((checks + 1))
	name=$1
	shift
	if ! "$@" >/dev/null 2>&1; then
		echo "test_ream: $name" >&2
		failures=$((failures + 1))
	fi
}

# Runs ream; its exit status has to be STATUS, and WORDS have to be among what it says: answers and refusals on the
# standard output alone, what is wrong with arguments and files on the standard error.
expect() { # STATUS WORDS ARGUMENTS..
	status=$1
	words=$2
	shift 2
	"$ream" "$@" >out 2>err
	got=$?
	check "ream $*: exit status $got, expected $status" [ "$got" -eq "$status" ]
	if [ "$status" -eq 2 ]; then
		check "ream $*: expected on standard error: $words" grep -qF -e "$words" err
	else
		check "ream $*: expected: $words" grep -qF -e "$words" out
		check "ream $*: expected nothing on standard error" [ ! -s err ]
	fi
	check "ream $*: expected lines of at most 80 columns" fits out
}

fits() { # FILE: no line is longer than 80 columns
	! grep -q '.\{81\}' "$1"
}

# The same, with a warning on the standard error.
expect_warned() { # STATUS WARNING WORDS ARGUMENTS..
	status=$1
	warning=$2
	words=$3
	shift 3
	"$ream" "$@" >out 2>err
	got=$?
	check "ream $*: exit status $got, expected $status" [ "$got" -eq "$status" ]
	check "ream $*: expected: $words" grep -qF -e "$words" out
	check "ream $*: expected the warning: $warning" grep -qF -e "$warning" err
	check "ream $*: expected no complaint but warnings" [ -z "$(grep -v '^ream: warning: ' err)" ]
}

# The same, and OUT is not written.
expect_none() { # OUT STATUS WORDS ARGUMENTS..
	none=$1
	shift
	expect "$@"
	check "ream $*: left $none" [ ! -e "$none" ]
}

says() { # WORDS: the last run said this too
	check "expected besides: $1" grep -qF -e "$1" out
}

says_not() { # WORDS: the last run did not say this
	check "not expected: $1" [ -z "$(grep -F -e "$1" out)" ]
}

# ---- pages and dumps

ff() { # COUNT: so many bytes FF
	dd if=/dev/zero bs="$1" count=1 2>/dev/null | tr '\000' '\377'
}

blank() { ff 2112; }
bad() { ff 2048; printf '\000'; ff 63; }
copy() { # SIGNATURE VERSION: a page of a table of good blocks; the version in octal
	ff 2062
	printf '%s' "$1"
	printf "\\$2"
	ff 45
}
primary() { copy Bbt0 "$1"; }
mirror() { copy 1tbB "$1"; }
zeroed() { # a page from the standard input, with its OOB all 0
	dd bs=1 count=2048 2>/dev/null
	dd if=/dev/zero bs=64 count=1 2>/dev/null
}
poke() { # FILE OFFSET BYTES: in octal escapes
	printf "$3" | dd of="$1" bs=1 seek="$2" conv=notrunc 2>/dev/null
}

# A chip of 16 blocks, of which each has one page in the dump.
chip="--blocks 16 --pages-per-block 1"
{ primary 005; blank; bad; mirror 005; } >settled
{ ff 25344; cat settled; } >whole
{ blank; blank; blank; blank; } >no_copy
{ primary 005; primary 006; blank; mirror 005; } >several
{ primary 005; blank; blank; mirror 205; } >opposite
{ primary 006; blank; blank; mirror 005; } >newer
{ primary 005; bad; bad; bad; } >no_target
{ primary 005; blank; blank; mirror 005; } >differing
poke differing 0 '\376'
# the largest chip, of which each block has four pages in the dump
{ primary 005; primary 005; primary 005; primary 005; ff 16896; mirror 005; mirror 005; mirror 005; mirror 005; } >large

# ---- pair

expect 0 "pair: settled, version 5, primary in block 12, mirror in block 15" pair $chip settled
says "chip: 16 blocks (told, unchecked), 1 page a block (told)"
says "dump: the last four blocks; a copy of the table fills 1 page"
says "region: the last four blocks, 12-15 (assumed)"
says "pages: all 4 that count read well (assumed)"
says "block 13: erased"
says "block 14: bad (marked)"
says "entries: 16 good, 0 reserved, 0 late, 0 factory"
sed 1,2d out >four_blocks
expect 0 "dump: the whole chip" pair --pages-per-block 1 whole
says "chip: 16 blocks (by the dump's size), 1 page a block (told)"
sed 1,2d out >whole_chip
check "a dump of the whole chip and one of its last four blocks agree" cmp four_blocks whole_chip
expect 0 "version 5" pair --pages-per-block 1 --blocks=16 -- whole
says "chip: 16 blocks (told), 1 page a block (told)"

expect 1 "pair: refused, 7: there is no good primary and no good mirror" pair $chip no_copy
says "recovery: refused, 7"
expect 1 "pair: refused, 8: there are two or more good copies of one kind" pair $chip several
says "recovery: refused, 8"
expect 1 "pair: refused, 9: the versions of primary and mirror are 128 apart" pair $chip opposite
says "recovery: refused, 9"
expect 1 "pair: refused, 10: the pair of tables is not settled" pair $chip newer
says "recovery: would erase block 15 and write the mirror there"
says "  from the primary, version 6; 2 steps"
expect 1 "pair: refused, 10" pair $chip no_target
says "recovery: refused, 11: there is no block to write a copy to"
expect 1 "pair: refused, 10" pair $chip differing
says "recovery: would merge both tables (AND) and write both copies"
says "  version 6; 4 steps"
says "  block 0: primary reserved, mirror good; merged reserved"
cp differing differing_more
poke differing_more 1 '\125'
poke differing_more 6337 '\252'
expect 1 "  blocks 4-7: primary late, mirror reserved; merged factory" pair $chip differing_more
says "  block 0: primary reserved, mirror good; merged reserved"

# a table of two pages: a copy is good only with both of one kind and version
{ primary 005; primary 006; mirror 005; blank; primary 005; mirror 005; bad; mirror 005; } >partly
expect 1 "pair: refused, 7" pair --blocks 8196 --pages-per-block 2 partly
says "a copy of the table fills 2 pages"
says "block 8192: partly PP"
says "block 8193: partly M-"
says "block 8194: partly PM"
says "block 8195: bad (marked)"
printf '\000\001\001\001\000\000\001\000' >status_partly
expect 1 "pair: refused, 7" pair --blocks 8196 --pages-per-block 2 --status status_partly partly
says "block 8192: partly Px"
says "block 8193: unreadable"
says "block 8195: partly xM"

# a retired block: 64 zero OOB bytes on its first page, which need not be readable
{ primary 005; blank | zeroed; bad; mirror 005; } >retired
for unreadable in "" "--unreadable 13:0"; do
	expect 0 "pair: settled, version 5" pair $chip $unreadable retired
	says "block 13: bad (retired)"
	says "block 14: bad (marked)"
done
for at in 2048 2061 2079 2111; do
	cp retired nearly
	poke nearly $((2112 + at)) '\001'
	expect 0 "pair: settled" pair $chip --unreadable 13:0 nearly
	says "block 13: unreadable"
	expect 0 "pair: settled" pair $chip nearly
	[ $at -eq 2048 ] || says "block 13: bad (marked)"
done
# past the first page zeros mean nothing, and of a block of several pages the first page alone counts
{ primary 005; primary 005; blank; blank | zeroed
	primary 005 | zeroed; primary 005; mirror 005; mirror 005; } >retired_two
expect 0 "pair: settled" pair --blocks 8196 --pages-per-block 2 --unreadable 8194:0 retired_two
says "block 8193: other"
says "block 8194: bad (retired)"
# it is no target of a recovery
{ primary 005; blank; blank | zeroed; blank | zeroed; } >no_mirror
expect 1 "recovery: would erase block 13 and write the mirror there" pair $chip --unreadable 14:0,15:0 no_mirror
poke no_mirror $((2 * 2112 + 2111)) '\001'
expect 1 "recovery: would erase block 14 and write the mirror there" pair $chip --unreadable 14:0,15:0 no_mirror

# ---- update

expect_none new 0 "update: 4 steps, to version 6" update $chip --mark-late 7,9-11 settled
says "   0  erase     12     -  0x000006000"
says "   1  write     12     0  0x000006000"
says "   2  erase     15     -"
says "   3  write     15     0"
expect 0 "pair: settled, version 6, primary in block 12, mirror in block 15" \
	update $chip --mark-late 7,9-11 --apply new settled
says "dump written: new"
expect 0 "version 6, primary in block 12, mirror in block 15" pair $chip new
says "entries: 12 good, 0 reserved, 4 late, 0 factory"
says "  block 7: late"
says "  blocks 9-11: late"
expect 0 "update: nothing to do, the table keeps version 6" update $chip --mark-late 9 new
says "  block 9: stays late"
expect 0 "version 6" update --pages-per-block 1 --mark-late 7,9-11 --apply new_whole whole
{ ff 25344; cat new; } >expected
check "an update of the whole chip's dump changes its last four blocks alike" cmp expected new_whole
{ primary 377; blank; blank; mirror 377; } >last_version
expect 0 "update: 4 steps, to version 0" update $chip --mark-late 1 --apply turned last_version
expect 0 "version 0" pair $chip turned

# marks add up, whether in a list or by several options, and each block is told
expect 0 "  block 5: good -> late" update $chip --mark-late 5 --mark-late 6,2 --mark-late=0-1 --apply several_marks settled
for block in 0 1 2 6; do
	says "  block $block: good -> late"
done
expect 0 "entries: 11 good, 0 reserved, 5 late, 0 factory" pair $chip several_marks
says "  blocks 0-2: late"
says "  blocks 5-6: late"
{ primary 005; blank; blank; mirror 005; } >kinds
for copy_at in 0 6336; do
	poke kinds $((copy_at + 2)) '\033'
done
expect 0 "update: 4 steps, to version 6" update $chip --mark-late 8-11,12 kinds
says "  block 8: good -> late"
says "  block 9: stays reserved"
says "  block 10: stays late"
says "  block 11: stays factory"
says "  block 12: good -> late"
says_not "block 13: "
for option in "--blocks 16" "--region-blocks 4" "--pages-per-block 1" "--status status_well" "--apply none" \
	"--status-out none_status" "--pages none_pages" "--force" "--json"; do
	printf '\000\000\000\000' >status_well
	expect_none none 2 "update: ${option%% *}: is given twice; expected it once" \
		update $option $option --mark-late 5 settled
done
expect_none none 2 "page: --repaired: is given twice" page --repaired none --repaired none page
expect_none none 2 "simulate: --seed: is given twice" simulate --seed 1 --dump none --seed=2
many=$(awk 'BEGIN { for (i = 0; i < 257; i++) printf " --mark-late 5" }')
expect 2 "--mark-late 5: is given more than 256 times; a list with commas takes more" update $chip $many settled

for dump in no_copy:7 several:8 opposite:9 newer:10 no_target:10; do
	expect_none none 1 "update: refused, ${dump#*:}:" update $chip --mark-late 1 --apply none "${dump%:*}"
done
says "a recovery comes first (ream recover)"

# an erase makes later pages of its block blank too, and no other block's
{ primary 005; copy abcd 005; blank; bad; bad; bad; mirror 005; bad; } >two_pages
{ primary 006; blank; blank; bad; bad; bad; mirror 006; blank; } >expected
poke expected 1 '\367'
poke expected 12673 '\367'
expect 0 "version 6" update --blocks 16 --pages-per-block 2 --mark-late 5 --apply erased two_pages
check "an erase makes every page of its block blank" cmp expected erased

# ---- geometry

# A dump of so many blocks of so many pages, with the copies in these blocks, counted from the end, and block 7 late.
make_dump() { # BLOCKS PAGES PRIMARY MIRROR
	left=$1
	while [ "$left" -gt 0 ]; do
		case $left in
		"$3") primary 005 >first ;;
		"$4") mirror 005 >first ;;
		*) blank >first ;;
		esac
		[ "$left" != "$3" ] && [ "$left" != "$4" ] || poke first 1 '\177'
		cat first
		ff $((($2 - 1) * 2112))
		left=$((left - 1))
	done
}
make_dump 16 128 1 2 >long_blocks
expect_warned 0 "long_blocks: 64 pages a block are assumed, but every copy of the table stands right for 128 pages" \
	"chip: 32 blocks (by the dump's size), 64 pages a block (assumed)" pair long_blocks
check "the warning tells the other chip" \
	grep -qF -e "for 128 pages a block (16 blocks) too; tell which by --pages-per-block" err
expect 0 "pair: settled, version 5, primary in block 15, mirror in block 14" pair --pages-per-block 128 long_blocks
expect 0 "chip: 32 blocks (by the dump's size), 64 pages a block (told)" pair --pages-per-block 64 long_blocks
expect_warned 0 "64 pages a block are assumed" "update: 4 steps" update --mark-late 1 long_blocks
expect_warned 0 "64 pages a block are assumed" "recover: nothing to do" recover long_blocks
for places in "1 3" "2 3" "1 4" "3 4" "4 2"; do
	make_dump 16 128 $places >long_blocks
	expect_warned 1 "carries a table's signature, where none can stand" "pair: refused" pair long_blocks
	check "the warning names what fits" grep -q "; .*128 pages a block (16 blocks) would fit (--pages-per-block)" err
	expect 0 "pair: settled, version 5" pair --pages-per-block 128 long_blocks
done
make_dump 16 128 1 4 >long_blocks
"$ream" pair long_blocks >out 2>err
check "the warning names block, page and offset" grep -qF -e "block 24, page 0, at offset 3244032, carries" err
make_dump 16 32 1 2 >short_blocks
expect_warned 1 "; 32 pages a block (16 blocks) or 16 pages a block (32 blocks) would fit" "chip: 8 blocks" \
	pair short_blocks
check "the warning names block, page and offset" grep -qF -e "block 7, page 32, at offset 1013760, carries" err
make_dump 4 128 1 2 >long_region
expect_warned 0 "right for 128 pages a block (the last four blocks) too" "chip: 8 blocks" pair long_region
expect 2 "the last four; --pages-per-block 128 would fit (refusal 1" pair --blocks 1024 long_region
make_dump 16 64 1 2 >usual
expect 0 "chip: 16 blocks (by the dump's size), 64 pages a block (assumed)" pair usual

# the last four blocks of a chip of 4096 blocks, of which block 3001 is late, told to be of 8
make_dump 4 64 1 2 >last_four
for copy_at in 270336 405504; do
	poke last_four $((copy_at + 750)) '\367'
done
expect 0 "  block 3001: late" pair --blocks 4096 last_four
expect_warned 0 "last_four: block 6, page 0, at offset 271086, has F7 in byte 750, behind the bitmap of 8 blocks" \
	"pair: settled, version 5" pair --blocks 8 last_four
check "the warning tells how many blocks there are" grep -qF -e "a table of 3004 blocks or more has an entry there" err
expect_warned 0 "behind the bitmap of 8 blocks, expected FF" "update: 4 steps" update --blocks 8 --mark-late 1 last_four
expect_warned 0 "behind the bitmap of 3000 blocks" "version 5" pair --blocks 3000 last_four
expect 0 "version 5" pair --blocks 3004 last_four
# a page that cannot be read contradicts nothing
expect 1 "pair: refused, 7" pair --blocks 8 --unreadable 6:0,7:0 last_four
# copies of two pages, told to be of one
{ primary 005; primary 005; blank; blank; blank; blank; mirror 005; mirror 005; } >long_copies
expect 0 "version 5" pair --blocks 8196 --pages-per-block 2 long_copies
expect_warned 0 "a chip of more blocks has longer copies (--blocks)" "version 5" \
	pair --blocks 4096 --pages-per-block 2 long_copies

# ---- the region's size

word() { # SIZE: as a word
	echo four five six seven | cut -d ' ' -f $(($1 - 3))
}
alone="--blocks 16 --pages-per-block 1 --region-blocks"
within="--pages-per-block 1 --region-blocks"
for size in 4 5 6 7; do
	first=$((16 - size))
	last="the last $(word $size) blocks"
	# the primary in the lowest block of the region, the mirror in the highest
	make_dump $size 1 $size 1 >region
	make_dump 16 1 $size 1 >chip_of_16
	expect 0 "pair: settled, version 5, primary in block $first, mirror in block 15" pair $alone $size region
	says "dump: $last; a copy of the table fills 1 page"
	says "region: $last, $first-15 (told)"
	says "pages: all $size that count read well (assumed)"
	check "every block of the region is told" [ "$(grep -c '^  block [0-9]*: [pme]' out)" -eq $size ]
	sed 1,2d out >of_region
	expect 0 "dump: the whole chip" pair $within $size chip_of_16
	says "chip: 16 blocks (by the dump's size), 1 page a block (told)"
	sed 1,2d out >of_chip
	check "a dump of the whole chip and one of $last agree" cmp of_region of_chip

	expect 0 "pair: settled, version 6, primary in block $first, mirror in block 15" \
		update $alone $size --mark-late 3,$first --apply marked --force region
	says "   0  erase  $(printf %5d $first)     -  0x$(printf %09x $((first * 2048)))"
	expect 0 "pair: settled, version 6" update $within $size --mark-late 3,$first --apply marked_chip --force chip_of_16
	{ ff $((first * 2112)); cat marked; } >expected
	check "an update of the whole chip's dump changes $last alike" cmp expected marked_chip
	expect 0 "version 6, primary in block $first, mirror in block 15" pair $alone $size marked
	for block in 3 7 $first; do
		says "  block $block: late"
	done

	expect 1 "pair: refused, 10" pair $alone $size --unreadable $first:0 region
	says "block $first: unreadable"
	says "pages: of the $size that count 1 unreadable (told)"
	says "recovery: would erase block 14 and write the primary there"
	expect 0 "pair: settled, version 5, primary in block 14, mirror in block 15" recover $alone $size \
		--unreadable $first:0 --apply mended --status-out mended_status --force region
	{ printf '\001'; dd if=/dev/zero bs=$((size - 1)) count=1 2>/dev/null; } >expected
	check "a status file has a byte for each block of the region" cmp expected mended_status
	expect 0 "version 5, primary in block 14" pair $alone $size --status mended_status mended
	expect 0 "primary in block 14" recover $within $size --unreadable $first:0 --apply mended_chip --force chip_of_16
	{ ff $((first * 2112)); cat mended; } >expected
	check "a recovery of the whole chip's dump changes $last alike" cmp expected mended_chip
	# the lowest block is the only one to recover to, and with a bad one there is none
	bads=$(awk "BEGIN { for (i = 2; i < $size; i++) printf \"bad; \" }")
	eval "{ blank; $bads mirror 005; }" >lowest
	expect 0 "pair: settled, version 5, primary in block $first, mirror in block 15" \
		recover $alone $size --apply mended --force lowest
	eval "{ bad; $bads mirror 005; }" >lowest
	expect 1 "recover: refused, 11" recover $alone $size lowest

	for len in $((size - 1)) $((size + 1)); do
		dd if=/dev/zero bs=$len count=1 of=other_status 2>/dev/null
		expect 2 "other_status: ends at offset $len, expected $size bytes, one for each of the first P pages of $last (" \
			pair $alone $size --status other_status region
	done
	for block in $((first - 1)) 16; do
		expect 2 "--unreadable $block:0: $block:0 is out of range, expected one of $last, $first to 15 (refusal 2" \
			pair $alone $size --unreadable $block:0 region
	done

	# read with another size: a dump of the region is refused, of the whole chip what lies below is not found
	for told in 4 5 6 7; do
		[ $told -ne $size ] || continue
		expect 2 "or the last $(word $told) blocks and --blocks N; --region-blocks $size and --blocks N would fit (refusal 2" \
			pair $within $told region
		expect 2 "the last $(word $told); it has $size blocks, --region-blocks $size would fit (refusal 1" \
			pair $alone $told region
		if [ $told -gt $size ]; then
			expect 0 "primary in block $first, mirror in block 15" pair $within $told chip_of_16
			continue
		fi
		warning="chip_of_16: block $first, page 0, at offset $((first * 2112)), carries a table's signature, where none"
		warning="$warning can stand: with 16 blocks of 1 page expected only on the first 1 page of the last $(word $told)"
		warning="$warning blocks; --region-blocks $size would have it found"
		expect_warned 1 "$warning" "pair: refused, 10" pair $within $told chip_of_16
		expect_warned 1 "$warning" "update: refused, 10" update $within $told --mark-late 3 chip_of_16
		expect_warned 0 "$warning" "recover: 2 steps, to version 5" recover $within $told chip_of_16
	done
done

# not told, it is four
make_dump 5 64 5 1 >five
expect 2 "five: has 5 blocks of 64 pages; expected a whole chip, a multiple of 4 blocks from 8 to 32768, or the last four" \
	pair five
check "the complaint tells what fits" grep -qF -e "; --region-blocks 5 and --blocks N would fit (refusal 2" err
expect 2 "540672 bytes, the last four; it has 5 blocks, --region-blocks 5 would fit (refusal 1" pair --blocks 1024 five
expect 0 "primary in block 1019, mirror in block 1023" pair --blocks 1024 --region-blocks 5 five
make_dump 16 64 5 1 >below
expect_warned 1 "last four blocks; --region-blocks 5 would have it found" "region: the last four blocks, 12-15 (assumed)" \
	pair below
expect 0 "pair: settled, version 5, primary in block 11, mirror in block 15" pair --region-blocks 5 below
# a page that cannot be read contradicts nothing, and is none to tell of below the region
expect 2 "--unreadable 11:0: 11:0 is out of range, expected one of the last four blocks" pair --unreadable 11:0 below
expect 1 "pair: refused, 10" pair --region-blocks 5 --unreadable 11:0 below
# copies of two pages
{ ff 4224; primary 005; primary 005; ff 16896; mirror 005; mirror 005; } >seven
expect 0 "pair: settled, version 5, primary in block 8190, mirror in block 8195" \
	pair --blocks 8196 --pages-per-block 2 --region-blocks 7 --unreadable 8189:0,8194:1 seven
says "pages: of the 14 that count 2 unreadable (told)"
says "block 8189: partly x-"
says "block 8194: partly -x"

# what is told of the highest blocks
make_dump 7 1 7 1 >seven_blocks
poke seven_blocks 0 '\376'
expect 1 "  block 0: primary reserved, mirror good; merged reserved" pair $alone 7 seven_blocks
make_dump 7 1 7 1 >seven_blocks
poke seven_blocks $((6 * 2112 + 750)) '\367'
expect_warned 0 "seven_blocks: block 15, page 0, at offset 13422, has F7 in byte 750, behind the bitmap of 16 blocks" \
	"pair: settled, version 5" pair $alone 7 seven_blocks

# at most half of the chip
for limit in 8:4:5 8:4:7 12:6:7; do
	blocks=${limit%%:*}
	size=${limit##*:}
	most=${limit#*:}
	most=${most%:*}
	wrong="--region-blocks $size: expected at most $most, half of the chip's $blocks blocks (refusal 2: a number is outside"
	make_dump $blocks 1 $most 1 >small
	expect 0 "primary in block $((blocks - most)), mirror in block $((blocks - 1))" pair $within $most small
	expect 2 "$wrong" pair $within $size small
	for command in "pair small" "update --mark-late 1 --apply none small" "recover --apply none small" \
		"init --apply none small" "simulate --dump none"; do
		expect_none none 2 "$wrong" $command --blocks $blocks $within $size
	done
	expect 0 "no rule broken" simulate --blocks $blocks --region-blocks $most
done
make_dump 12 1 7 1 >small
expect_warned 1 "small: block 5, page 0, at offset 10560, carries a table's signature" "refused, 10" pair $within 4 small
check "a region that the chip cannot have is not told of" [ -z "$(grep -e '--region-blocks' err)" ]
make_dump 5 1 5 1 >region
expect 2 "the last four (refusal 1" pair --blocks 8 $within 4 region

# the size that all signatures need which can stand; and other numbers that fit, alone or with it
make_dump 16 64 5 6 >below
expect_warned 1 "block 11, page 0, at offset 1486848, carries" "pair: refused, 7" pair below
check "the size is that of both copies" grep -qF -e "; --region-blocks 6 would have it found" err
expect_warned 1 "of the last five blocks; --region-blocks 6 would have it found" "refused, 10" pair --region-blocks 5 below
make_dump 16 128 1 3 >long_blocks
expect_warned 1 "; 128 pages a block (16 blocks) would fit (--pages-per-block); --region-blocks 6 would have it found" \
	"pair: refused, 10" pair long_blocks
expect_warned 0 "64 pages a block are assumed, but every copy of the table stands right for 128 pages a block (16 blocks)" \
	"primary in block 30, mirror in block 26" pair --region-blocks 6 long_blocks
make_dump 16 128 5 3 >long_blocks
expect_warned 1 "; --region-blocks 6 would have it found; 128 pages a block (16 blocks) with --region-blocks 5 would fit" \
	"pair: refused, 7" pair long_blocks
make_dump 16 128 5 2 >long_blocks
expect_warned 1 "four blocks; 128 pages a block (16 blocks) with --region-blocks 5 would fit (--pages-per-block)" \
	"pair: refused, 10" pair long_blocks
expect_warned 1 "five blocks; 128 pages a block (16 blocks) would fit (--pages-per-block)" "pair: refused, 10" \
	pair --region-blocks 5 long_blocks
expect 0 "primary in block 11, mirror in block 14" pair --region-blocks 5 --pages-per-block 128 long_blocks
make_dump 8 128 1 2 >long_blocks
expect_warned 0 "right for 128 pages a block (8 blocks) too" "pair: settled" pair --region-blocks 4 long_blocks
expect 0 "pair: settled, version 5, primary in block 14, mirror in block 12" pair --region-blocks 5 long_blocks
make_dump 5 128 1 2 >long_region
expect 2 "the last five; --pages-per-block 128 would fit (refusal 1" pair --blocks 1024 --region-blocks 5 long_region
make_dump 6 128 1 2 >long_region
expect_warned 0 "right for 128 pages a block (the last six blocks) too" "chip: 12 blocks" pair long_region
expect 0 "chip: 12 blocks (by the dump's size), 64 pages a block (assumed)" pair --region-blocks 4 long_region
expect 2 "has 6 blocks of 128 pages; expected a whole chip" pair --pages-per-block 128 long_region
check "the complaint tells what fits" grep -qF -e "; --region-blocks 6 and --blocks N would fit (refusal 2" err
make_dump 6 128 1 6 >long_region
expect_warned 1 "; 128 pages a block (the last six blocks) would fit (--pages-per-block)" "chip: 12 blocks" pair long_region
# the longest blocks
make_dump 12 1024 6 1 >longest_blocks
expect_warned 1 "of the last four blocks; --region-blocks 6 would have it found" "pair: refused, 10" \
	pair --pages-per-block 1024 longest_blocks
expect_warned 1 "; 1024 pages a block (12 blocks) with --region-blocks 6 would fit (--pages-per-block)" "192 blocks" \
	pair longest_blocks
expect 0 "primary in block 6, mirror in block 11" pair --pages-per-block 1024 --region-blocks 6 longest_blocks
rm longest_blocks

# ---- what Linux leaves

one_line() { # the last run's notes, without their line breaks
	tr '\n' ' ' <out | sed 's/  */ /g' >one_line
}
notes() { # WORDS: are among the notes
	one_line
	check "expected among the notes: $1" grep -qF -e "$1" one_line
}
notes_not() { # WORDS: are not
	one_line
	check "not expected among the notes: $1" [ -z "$(grep -F -e "$1" one_line)" ]
}
two="--blocks 8196 --pages-per-block 2"
{ primary 005; blank; blank; blank; blank; blank; mirror 005; blank; } >by_linux
expect 1 "pair: refused, 7" pair $two by_linux
for block in 8192 8195; do
	notes "note: block $block is a copy with its header on page 0 only, as Linux writes it above 8,192 blocks, as a power cut"
	notes "as a power cut in the making of a first pair leaves it, and as a chip of 8,192 blocks or fewer has it. The library"
	notes "fewer has it. The library wants the header on all 2 pages (docs/LINUX.md)"
done
# the commands of docs/LINUX.md, as printed
mkdir linux
{ ff $((3 * 64 * 2112)); mirror 005; ff $((63 * 2112)); } >linux/dump.bin
sed -n '/^    cp dump/,/^$/s/^    //p' "$root/docs/LINUX.md" >linux/headers.sh
sed -n '/^    block=3$/,/^$/s/^    //p' "$root/docs/LINUX.md" >linux/given_up.sh
expect 1 "block 8195: partly M-" pair --blocks 8196 linux/dump.bin
check "headers are brought back" sh -c 'cd linux && sh -e ./headers.sh'
expect 1 "block 8195: mirror v5" pair --blocks 8196 linux/copy.bin
check "a block is lent as bad" sh -c 'cd linux && sh -e ./given_up.sh'
expect 1 "block 8195: bad (retired)" pair --blocks 8196 linux/copy.bin
{ primary 005; primary 005; blank; blank; blank; blank; mirror 005; blank; } >cut_or_linux
expect 1 "pair: refused, 10" pair $two cut_or_linux
notes "block 8195 is a copy with its header on page 0 only, as Linux writes it above 8,192 blocks, and as a power cut after"
notes_not "block 8192 is a copy"
poke cut_or_linux 14784 '\177'
expect 1 "pair: refused, 10" pair $two cut_or_linux
notes "block 8195 is a copy with its header on page 0 only, as Linux writes it above 8,192 blocks. The library"
expect 1 "pair: refused, 10" pair $two --unreadable 8195:1 cut_or_linux
notes_not "as Linux writes it"
expect 1 "pair: refused, 10" pair $chip newer
notes_not "Linux"

# entries: reserved and none late, in no table block
{ primary 005; blank; blank; mirror 005; } >worn
for copy_at in 0 6336; do
	poke worn $((copy_at + 1)) '\276'
done
expect 0 "entries: 14 good, 2 reserved, 0 late, 0 factory" pair $chip worn
notes "note: 2 entries are reserved (10) and none late (01), as in a table that Linux writes"
notes "If Linux has written this chip, reserved means worn (docs/LINUX.md)"
expect 0 "update: 4 steps" update $chip --mark-late 0-1 --apply worn_marked worn
expect 0 "2 reserved, 2 late" pair $chip worn_marked
notes_not "Linux"
{ primary 005; blank; blank; mirror 005; } >held
for copy_at in 0 6336; do
	poke held $((copy_at + 3)) '\252'
done
expect 0 "entries: 12 good, 4 reserved" pair $chip held
notes_not "Linux"

# Linux keeps four blocks for its tables, whatever the region's size: below them an entry may be its own
{ primary 005; blank; blank; blank; mirror 005; } >worn_below
for copy_at in 0 8448; do
	poke worn_below $((copy_at + 2)) '\277'
done
expect 0 "  block 11: reserved" pair $alone 5 worn_below
notes "note: 1 entry is reserved (10) and none late (01), as in a table that Linux writes"
for copy_at in 0 8448; do
	poke worn_below $((copy_at + 3)) '\376'
done
expect 0 "  blocks 11-12: reserved" pair $alone 5 worn_below
notes_not "Linux"
{ primary 005; ff 23232; mirror 005; blank; } >by_linux_in_seven
expect 1 "pair: refused, 7" pair $two --region-blocks 7 by_linux_in_seven
for block in 8189 8195; do
	notes "note: block $block is a copy with its header on page 0 only"
done
# where the primary lies below its four blocks, it makes another
{ ff 23232; primary 005; ff 4224; primary 006; mirror 006; } >by_linux_once_more
expect 1 "pair: refused, 8" pair $within 5 by_linux_once_more
expect_warned 0 "block 11, page 0, at offset 23232, carries" "version 6, primary in block 14" \
	pair $within 4 by_linux_once_more
dd if=/dev/zero of=by_linux_once_more bs=1 seek=$((23232 + 2048)) count=64 conv=notrunc 2>/dev/null
expect 0 "version 6, primary in block 14" pair $within 5 by_linux_once_more

# a table's block that went bad under Linux: its signature is there, and 0 in OOB 0
{ primary 005; primary 006; blank; mirror 006; } >given_up
poke given_up 2048 '\000'
expect 1 "pair: refused, 8" pair $chip given_up
notes "note: block 12 carries a signature and 0 in OOB 0, as Linux leaves a table's block that went bad."
notes_not "block 13 carries"
dd if=/dev/zero of=given_up bs=1 seek=2048 count=64 conv=notrunc 2>/dev/null
expect 0 "pair: settled, version 6, primary in block 13, mirror in block 15" pair $chip given_up
says "block 12: bad (retired)"

# ---- recover

expect 0 "recover: nothing to do, the table keeps version 5" recover $chip --apply same settled
check "an empty plan leaves the dump as it is" cmp settled same
expect 0 "recover: 2 steps, to version 6" recover $chip --apply recovered newer
says "   0  erase     15     -"
says "pair: settled, version 6, primary in block 12, mirror in block 15"
expect 0 "pair: settled, version 6, primary in block 12, mirror in block 15" pair $chip recovered
expect 0 "recover: 4 steps, to version 6" recover $chip --apply merged differing
says "  block 0: primary reserved, mirror good; merged reserved"
expect 0 "block 0: reserved" pair $chip merged
for dump in no_copy:7 several:8 opposite:9 no_target:11; do
	expect_none none 1 "recover: refused, ${dump#*:}:" recover $chip --apply none "${dump%:*}"
done

# a page that could not be read
printf '\000\000\000\001' >status
expect 1 "pair: refused, 10" pair $chip --status status settled
says "block 15: unreadable"
says "recovery: would erase block 15 and write the mirror there"
expect 0 "status file written: status_after" \
	recover $chip --status status --apply after --status-out status_after settled
expect 0 "version 5" pair $chip --status status_after after
printf '\000\000\000\000' >expected
check "what is written reads well" cmp expected status_after

# pages that could not be read, by name
"$ream" pair $chip --status status settled >by_file
expect 1 "pair: refused, 10" pair $chip --unreadable 15:0 settled
check "a page named is as in a status file" cmp by_file out
says "pages: of the 4 that count 1 unreadable (told)"
expect 1 "pair: refused, 7" pair $chip --unreadable 12:0,15:0 settled
expect 1 "pair: refused, 7" pair $chip --unreadable 12:0 --unreadable=15:0 settled
expect 1 "pair: refused, 7" pair $chip --status status --unreadable 12:0 settled
expect 0 "status file written: status_named" \
	recover $chip --unreadable 15:0,13:0 --apply named --status-out status_named settled
printf '\000\001\000\000' >expected
check "what is not written stays unreadable" cmp expected status_named
expect 1 "block 8195: partly xM" pair --blocks 8196 --pages-per-block 2 --unreadable 8195:0 partly
for page in 11:0 16:0 5:0 -1:0 99999999999999999999999:0; do
	expect 2 "--unreadable $page: $page is out of range, expected one of the last four blocks, 12 to 15 (refusal 2" \
		pair $chip --unreadable "$page" settled
done
for page in 15:1 15:-1; do
	expect 2 "--unreadable $page: $page is out of range, expected a page from 0 to 0, as only these count (refusal 2" \
		pair $chip --unreadable "$page" settled
done
expect 2 "--unreadable 15: 15 has no page; expected BLOCK:PAGE with commas" pair $chip --unreadable 15 settled
expect 2 "--unreadable 15:0,: nothing stands after the last comma" pair $chip --unreadable 15:0, settled
expect 2 "--unreadable 15:x: cannot take \"15:x\"" pair $chip --unreadable 15:x settled

# ---- failed steps

planned() { # the steps of the last run's plan, numbered from 0
	awk '$1 == number + 0 && $2 ~ /^(erase|write|zero)$/ {
		printf "%s%s %s %s", number++ ? ", " : "", $2, $3, $4 }' out
}
plan_is() { # STEPS
	check "expected the plan: $1; found: $(planned)" [ "$(planned)" = "$1" ]
}
# A plan after failed steps, and the pair that it leaves when it is carried out on a copy.
after_failed() { # FAILED STEPS PRIMARY MIRROR ARGUMENTS..
	failed=$1
	steps=$2
	pair="primary in block $3, mirror in block $4"
	shift 4
	expect 0 "to version 6" "$@" --failed "$failed" --apply anew --status-out anew_status --force
	plan_is "$steps"
	says "pair: settled, version 6, $pair"
	steps=$(echo "$failed" | tr ',' '\n' | grep -c .)
	check "each failed step is told: $failed" [ "$(grep -c '^failed: step' out)" -eq "$steps" ]
}
# block 7 late already, so that data tells
{ primary 005; blank; blank; mirror 005; } >free
for copy_at in 0 6336; do
	poke free $((copy_at + 1)) '\177'
done
update="update $chip --mark-late 9 free"
primary="erase 14 -, write 14 0, erase 15 -, write 15 0"
after_failed "" "erase 12 -, write 12 0, erase 15 -, write 15 0" 12 15 $update
says_not "zero"
cp out none_failed
for option in "" "--failed=" "--failed= --failed="; do
	expect 0 "to version 6" $update $option --apply anew --status-out anew_status --force
	check "no failed step is an empty list" cmp none_failed out
done
after_failed 0 "zero 12 0, $primary" 14 15 $update
says "failed: step 0, erase block 12; its copy goes to block 14"
says "update: 5 steps, to version 6"
says "     0  zero      12     0  0x000006000"
says "  a zero step writes 00 to all 64 OOB bytes of its page, and no data"
says "  block 9: good -> late"
after_failed 1 "zero 12 0, $primary" 14 15 $update
says "failed: step 1, write block 12 page 0; its copy goes to block 14"
after_failed 2 "zero 15 0, erase 14 -, write 14 0" 12 14 $update
says "failed: step 2, erase block 15; its copy goes to block 14"
after_failed 3 "zero 15 0, erase 14 -, write 14 0" 12 14 $update
# each number counts in the plan as it stood after the failures before it
primary="erase 13 -, write 13 0, erase 15 -, write 15 0"
after_failed 1,1 "zero 14 0, $primary" 13 15 $update
says "failed: step 1, write block 12 page 0; its copy goes to block 14"
says "failed: step 1, erase block 14; its copy goes to block 13"
after_failed 0,2 "zero 14 0, $primary" 13 15 $update
after_failed 1,3 "zero 15 0, erase 13 -, write 13 0" 14 13 $update
after_failed 1,4 "zero 15 0, erase 13 -, write 13 0" 14 13 $update
after_failed 3,2 "zero 14 0, erase 13 -, write 13 0" 12 13 $update
says "failed: step 2, write block 14 page 0; its copy goes to block 13"
cp out in_one_list
expect 0 "to version 6" $update --failed 3 --failed= --failed=2 --apply anew --status-out anew_status --force
check "failed steps add up, whether in a list or by several options" cmp in_one_list out

# what is done on the copy: the steps before each failed one, zeros in the OOB alone, and nothing of a failed step
as_updated() { # FILE..: pages as the update writes them, with blocks 7 and 9 late
	for file; do
		poke "$file" 1 '\177'
		poke "$file" 2 '\367'
	done
}
primary 005 >old_primary
mirror 005 >old_mirror
poke old_primary 1 '\177'
poke old_mirror 1 '\177'
primary 006 >new_primary
mirror 006 >new_mirror
as_updated new_primary new_mirror
carried_out() { # FAILED PAGES..: what is then in the four blocks; 0PAGE has its OOB zeroed
	failed=$1
	shift
	for page; do
		case $page in
		0*) zeroed <"${page#0}" ;;
		*) cat "$page" ;;
		esac
	done >expected
	"$ream" $update --failed "$failed" --apply anew --force >out 2>err
	check "the plan after failed steps $failed is carried out" cmp expected anew
}
blank >blank_page
carried_out 0 0old_primary blank_page new_primary new_mirror
carried_out 1 0blank_page blank_page new_primary new_mirror
carried_out 2 new_primary blank_page new_mirror 0old_mirror
carried_out 3 new_primary blank_page new_mirror 0blank_page
carried_out 1,1 0blank_page new_primary 0blank_page new_mirror
carried_out 0,3 0old_primary new_mirror new_primary 0old_mirror
carried_out 3,2 new_primary new_mirror 0blank_page 0blank_page
{ ff 25344; cat free; } >free_whole
expect 0 "version 6" update --pages-per-block 1 --mark-late 9 --failed 1 --apply anew_whole free_whole
{ ff 25344; zeroed <blank_page; cat blank_page new_primary new_mirror; } >expected
check "failed steps on a dump of the whole chip" cmp expected anew_whole

# the zero step leaves the page's status as it is, and no other page
{ primary 005; primary 005; blank; blank; blank; copy abcd 005; blank; blank; copy abcd 005
	mirror 005; mirror 005; copy abcd 005; } >two_of_three
two_pages="--blocks 8196 --pages-per-block 3 two_of_three"
printf '\000\000\000\000\001\000\000\000' >two_status
expect 0 "recover: nothing to do" recover $two_pages --status two_status
for failed in 2,1 2,2; do
	# the second page of the primary fails, then the erase or the first page at block 8194
	expect 0 "update: 7 steps, to version 6" update $two_pages --status two_status --mark-late 9 --failed $failed \
		--apply anew --status-out anew_status --force
	plan_is "zero 8194 0, erase 8193 -, write 8193 0, write 8193 1, erase 8195 -, write 8195 0, write 8195 1"
	[ $failed = 2,2 ] || printf '\000\000\000\000\001\000\000\000' >expected
	[ $failed = 2,1 ] || printf '\000\000\000\000\000\000\000\000' >expected
	check "a zero step leaves the page's status as it is" cmp expected anew_status
	dd if=anew of=found bs=2112 count=3 2>/dev/null
	primary 006 >first
	poke first 2 '\367'
	{ zeroed <first; blank; blank; } >expected
	check "a zero step is on the first page of its block alone" cmp expected found
	expect 0 "pair: settled, version 6, primary in block 8193, mirror in block 8195" \
		pair --blocks 8196 --pages-per-block 3 --status anew_status anew
	says "block 8192: bad (retired)"
	says "block 8194: bad (retired)"
done

# recoveries: one copy written anew, a missing one, and both
after_failed 0 "zero 15 0, erase 14 -, write 14 0" 12 14 recover $chip newer
after_failed 1,2 "zero 14 0, erase 13 -, write 13 0" 12 13 recover $chip newer
{ blank; blank; blank; mirror 006; } >one_mirror
after_failed 0 "zero 14 0, erase 13 -, write 13 0" 13 15 recover $chip one_mirror
says "failed: step 0, erase block 14; its copy goes to block 13"
after_failed 1,1 "zero 13 0, erase 12 -, write 12 0" 12 15 recover $chip one_mirror
after_failed 1 "zero 12 0, erase 14 -, write 14 0, erase 15 -, write 15 0" 14 15 recover $chip differing
says "  block 0: primary reserved, mirror good; merged reserved"
after_failed 3,1 "zero 14 0, erase 13 -, write 13 0" 12 13 recover $chip differing
expect 0 "block 0: reserved" pair $chip anew
# a first page that could not be read keeps its status under the zeros
expect 0 "pair: settled, version 6, primary in block 13" recover $chip --unreadable 14:0 --failed 0 --apply anew \
	--status-out anew_status --force one_mirror
printf '\000\000\001\000' >expected
check "a zero step leaves an unreadable page unreadable" cmp expected anew_status
expect 0 "block 14: bad (retired)" pair $chip --status anew_status anew
# a region of more blocks: the target is the highest that is free
for size in 5 6 7; do
	make_dump $size 1 $size 1 >region
	lowest=$((16 - size))
	failed=1
	expected=14
	while [ $expected -gt $lowest ]; do
		expect 0 "pair: settled, version 6, primary in block $expected, mirror in block 15" update $alone $size \
			--mark-late 9 --failed $failed --apply anew --force region
		failed=$failed,2
		expected=$((expected - 1))
	done
	expect 1 "update: refused, 11" update $alone $size --mark-late 9 --failed $failed region
done
# bad blocks and retired ones of the dump are no target
expect 0 "zero      12" update $chip --mark-late 9 --failed 1 settled
says "its copy goes to block 13"
expect 1 "update: refused, 11" update $chip --mark-late 9 --failed 1 --unreadable 13:0 retired

# refusals, of which the first one met is told; nothing is written then
refused() { # NUMBER FAILED ARGUMENTS..
	number=$1
	failed=$2
	shift 2
	expect_none none 1 "refused, $number:" "$@" --failed "$failed" --apply none --pages none
}
for failed in 4 255 4,0 4,4; do
	refused 2 $failed $update
	says "failed: step ${failed%,*}, which its plan does not have: its steps are 0 to 3"
	says "update: refused, 2: a number is outside its range"
	says "  a failed step's number counts in the plan as it stood when the step failed"
done
refused 2 1,5 $update
says "failed: step 1, write block 12 page 0; its copy goes to block 14"
says "failed: step 5, which its plan does not have: its steps are 0 to 4"
refused 2 3,3,0 $update
says "failed: step 3, which its plan does not have: its steps are 0 to 2"
refused 2 0 recover $chip settled
says "failed: step 0, which its plan does not have: it is empty"
refused 2 0 update $chip --mark-late 7 free
for failed in 0,0 1,0 3,0 3,0,9 1,1,0; do
	refused 12 $failed $update
	says "update: refused, 12: a step that writes zeros failed"
	says "  carry out no further step: dump the region again and recover it from there,"
	says "  without --failed, as after a power cut (ream recover); then take the chip out"
done
says "failed: step 0, zero block 14"
says "  block 14 is as its zero step left it, retired or not"
for failed in 1,1,1 1,2,3 3,2,2 3,2,2,0 1,2,2,9; do
	refused 11 $failed $update
	says "update: refused, 11: there is no block to write a copy to"
	says "  no block is left for its copy, as each is the other copy's, readable as bad or"
	says "  carry out no further step: dump the region again and recover it from there,"
done
says "failed: step 2, write block 13 page 0"
says "  failed; block 13 is not retired"
refused 11 0,1,1 recover $chip one_mirror
says "recover: refused, 11"
says "failed: step 1, erase block 12"
# what the dump holds is refused first
for dump in no_copy:7 several:8 opposite:9 newer:10 no_target:10; do
	refused "${dump#*:}" 9 update $chip --mark-late 1 "${dump%:*}"
	says_not "failed: "
	says "  --failed goes with the dump that the first plan was made from, as it was then"
done
for dump in no_copy:7 several:8 opposite:9 no_target:11; do
	refused "${dump#*:}" 0 recover $chip "${dump%:*}"
done
says "  every block but the good copy's is readable as bad"
says_not "carry out no further step"
expect 1 "recover: refused, 11" recover $chip no_target
says "  every block but the good copy's is readable as bad"
says_not "--failed"

# wrong lists
for failed in x 1-2 1.5 1:0 "1 2" +1; do
	expect_none none 2 "--failed $failed: cannot take \"$failed\"; expected steps' numbers with commas, as in 1,3" \
		$update --apply none --failed "$failed"
done
for failed in 256 -1 99999999999999999999999; do
	expect_none none 2 "--failed 1,$failed: $failed is out of range, expected steps from 0 to 255 (refusal 2: a number is" \
		$update --apply none --failed "1,$failed"
done
expect 2 "--failed 1,: nothing stands after the last comma" $update --failed 1,
expect 2 "--failed ,1: nothing stands before the first comma" $update --failed ,1
expect 2 "--failed 1,,1: nothing stands between two commas" recover $chip --failed 1,,1 newer
expect 2 "--failed: expected a value after it" recover $chip newer --failed
expect 2 "--fail: no such option; --failed has to be named in full" recover $chip --fail 1 newer
for command in "pair $chip" page; do
	expect 2 "--failed: no such option" $command --failed 1 newer
done
most=$(awk 'BEGIN { for (i = 0; i < 256; i++) printf "%s9", i ? "," : "" }')
refused 2 "$most" $update
expect 2 "is one of more than 256 numbers" $update --failed "$most" --failed 9

# ---- the pages of a plan

expect 0 "     1  write     12     0  0x000006000  step-01-block-12-page-0.bin" update $chip --mark-late 5 --pages images settled
says "     3  write     15     0  0x000007800  step-03-block-15-page-0.bin"
says "page written: images/step-01-block-12-page-0.bin"
check "a file for each page, in the plan's order" \
	[ "$(ls images | tr '\n' ' ')" = "step-01-block-12-page-0.bin step-03-block-15-page-0.bin " ]
primary 006 >expected
poke expected 1 '\367'
check "a page is as the plan writes it" cmp expected images/step-01-block-12-page-0.bin
expect 2 "images/step-01-block-12-page-0.bin: is there already" update $chip --mark-late 5 --pages images settled
expect 0 "page written: images/" update $chip --mark-late 5 --pages images --force settled
expect 2 "is no page of this plan; expected a folder without others" recover $chip --pages images --force newer
expect_none none 2 "settled: is there and is no folder" recover $chip --apply none --pages settled newer
expect_none missing 2 "missing/none: cannot be made" recover $chip --pages missing/none newer
expect_none none 2 "none: is there and is no regular file" recover $chip --apply none --pages none newer
expect_none folder_of_pages 2 "is named for two files to write" \
	recover $chip --apply folder_of_pages/step-01-block-15-page-0.bin --pages ./folder_of_pages newer
expect_none none 0 "recover: nothing to do" recover $chip --pages none settled
expect_none none 1 "recover: refused, 7" recover $chip --pages none no_copy
mkdir empty_folder
expect 0 "page written: empty_folder/step-01-block-15-page-0.bin" recover $chip --pages empty_folder newer
expect 0 "update: 10 steps" update --blocks 32768 --pages-per-block 4 --mark-late 0,32767 --pages all --apply all_applied large
says "   9  write  32767     3  0x00ffff800"
check "all pages of the longest plan" [ "$(ls all | wc -l)" -eq 8 ]
# a zero step has a file, of which the OOB alone is for the chip
expect 0 "     0  zero      12     0  0x000006000  step-00-block-12-zero.bin" $update --failed 1 --pages zero_images
says "     2  write     14     0  0x000007000  step-02-block-14-page-0.bin"
says "page written: zero_images/step-00-block-12-zero.bin"
check "a file for each step but the erases" [ "$(ls zero_images | tr '\n' ' ')" = \
	"step-00-block-12-zero.bin step-02-block-14-page-0.bin step-04-block-15-page-0.bin " ]
blank | zeroed >expected
check "the OOB of a zero step's file is 0, its data FF" cmp expected zero_images/step-00-block-12-zero.bin
check "a page after failed steps" cmp new_primary zero_images/step-02-block-14-page-0.bin
check "the other copy's page after failed steps" cmp new_mirror zero_images/step-04-block-15-page-0.bin
expect 0 "page written" $update --failed 1 --pages zero_images --force
expect 2 "is no page of this plan; expected a folder without others" $update --failed 3 --pages zero_images --force
expect 2 "is no page of this plan; expected a folder without others" $update --pages zero_images --force
expect 0 "update: 11 steps, to version 6" update --blocks 32768 --pages-per-block 4 --mark-late 0,32767 --failed 4 \
	--pages all_anew --apply all_anew_applied --status-out all_anew_status large
says "  10  write  32767     3  0x00ffff800"
says "pair: settled, version 6, primary in block 32766, mirror in block 32767"
check "all pages of the longest plan after a failed step" [ "$(ls all_anew | wc -l)" -eq 9 ]
for page in 0 1 2 3; do
	check "pages are the same wherever their copy goes" \
		cmp all/step-0$((page + 1))-block-32764-page-$page.bin all_anew/step-0$((page + 2))-block-32766-page-$page.bin
done

cat all/step-0[1-4]* >expected
dd if=all_applied bs=8448 count=1 of=found 2>/dev/null
check "the pages in their names' order are the copy" cmp expected found

# ---- init

# A blank chip without a table, as the file new, with these blocks marked bad: 3 on its first page, 3:1 on its second.
new_chip() { # BLOCKS PAGES BAD..
	pages=$2
	ff $(($1 * pages * 2112)) >new
	shift 2
	for bad_block; do
		case $bad_block in
		*:*) marked_page=${bad_block#*:} ;;
		*) marked_page=0 ;;
		esac
		poke new $(((${bad_block%:*} * pages + marked_page) * 2112 + 2048)) '\000'
	done
}
bitmap_of() { # BLOCKS BAD..: the bitmap with these blocks factory and all others good
	printf "$(echo "$*" | tr ' ' '\n' | awk -F : 'NR == 1 { blocks = $1; next } { bad[$1] = 1 } END {
		for (i = 0; i < blocks; i += 4) {
			byte = 0
			for (j = i + 3; j >= i; j--)
				byte = 4 * byte + (j in bad ? 0 : 3)
			printf "\\%03o", byte
		} }')"
}
put_copy() { # FILE BLOCK PAGES COUNT KIND VERSION: of the table in the file bitmap, COUNT pages of a block that is erased
	ff $(($3 * 2112)) | dd of="$1" bs=2112 seek=$(($2 * $3)) conv=notrunc 2>/dev/null
	part=0
	while [ $part -lt "$4" ]; do
		$5 "$6" >part_page
		dd if=bitmap of=part_page bs=2048 skip=$part count=1 conv=notrunc 2>/dev/null
		dd if=part_page of="$1" bs=2112 seek=$(($2 * $3 + part)) conv=notrunc 2>/dev/null
		part=$((part + 1))
	done
}

of_two="--pages-per-block 2 --region-blocks"
new_chip 16 2
expect_none made 0 "init: 4 steps, to version 1" init --pages-per-block 2 new
plan_is "erase 15 -, write 15 0, erase 14 -, write 14 0"
says "chip: 16 blocks (by the dump's size), 2 pages a block (told)"
says "  block 15: erased"
says "bitmap: by the marks in the dump"
says "entries: 16 good, 0 reserved, 0 late, 0 factory"
says "primary: block 15 (assumed), version 1 (assumed)"
says "     1  write     15     0  0x00000f000"
says_not "pair: "
cp new new_before
expect 0 "pair: settled, version 1, primary in block 15, mirror in block 14" init --pages-per-block 2 --apply made new
says "dump written: made"
says_not "cut: "
{ ff $((28 * 2112)); mirror 001; blank; primary 001; blank; } >expected
check "the first pair on a blank chip" cmp expected made
check "the dump that is read stays as it is" cmp new_before new
expect 0 "pair: settled, version 1, primary in block 15, mirror in block 14" pair --pages-per-block 2 made
expect 0 "pair: settled, version 2, primary in block 15, mirror in block 14" \
	update --pages-per-block 2 --mark-late 5 --apply made_marked made
# what it is told, it takes
for version in 0:000 1:001 255:377; do
	expect 0 "init: 4 steps, to version ${version%:*}" init --pages-per-block 2 --version ${version%:*} --apply made \
		--force new
	says "version ${version%:*} (told)"
	{ ff $((28 * 2112)); mirror ${version#*:}; blank; primary ${version#*:}; blank; } >expected
	check "a version that is told" cmp expected made
done
for block in 12:15 13:15 14:15 15:14; do
	expect 0 "pair: settled, version 1, primary in block ${block%:*}, mirror in block ${block#*:}" \
		init --pages-per-block 2 --block ${block%:*} --apply made --force new
	says "primary: block ${block%:*} (told), version 1 (assumed)"
	expect 0 "primary in block ${block%:*}, mirror in block ${block#*:}" pair --pages-per-block 2 made
done

# blocks that the factory has marked: fewer and fewer are left, and then one, and then none
for size in 4 5 6 7; do
	marked=3
	left=$size
	while [ $left -ge 0 ]; do
		high=$((16 - size + left - 1))
		low=$((high - 1))
		new_chip 16 2 $marked
		bitmap_of 16 $marked >bitmap
		if [ $left -ge 2 ]; then
			expect 0 "pair: settled, version 1, primary in block $high, mirror in block $low" \
				init $of_two $size --apply made --force new
			plan_is "erase $high -, write $high 0, erase $low -, write $low 0"
			cp new expected
			put_copy expected $high 2 1 primary 001
			put_copy expected $low 2 1 mirror 001
			check "a region of $size blocks, of which $left are left" cmp expected made
			expect 0 "primary in block $high, mirror in block $low" pair $of_two $size made
			says "entries: $((15 - size + left)) good, 0 reserved, 0 late, $((1 + size - left)) factory"
			says "  block 3: factory"
		elif [ $left -eq 1 ]; then
			expect_none none 1 "init: refused, 11: there is no block to write a copy to" \
				init $of_two $size --apply none --pages none new
			says "  every block but $high is readable as bad: the primary would stand alone there"
		else
			expect_none none 1 "init: refused, 7: there is no good primary and no good mirror" \
				init $of_two $size --apply none --pages none new
			says "  every block of the region is readable as bad: there is none for a table"
		fi
		marked="$marked $high"
		left=$((left - 1))
	done
done
# wherever they are, and however a block is readable as bad
for bads in "15:14 13" "14:15 13" "13:15 14" "12:15 14" "12 15:14 13" "13 15:14 12" "13 14:15 12"; do
	new_chip 16 2 ${bads%:*}
	pair=${bads#*:}
	expect 0 "primary in block ${pair% *}, mirror in block ${pair#* }" init $of_two 4 --apply made --force new
done
new_chip 16 2
dd if=/dev/zero of=new bs=1 seek=$((30 * 2112 + 2048)) count=64 conv=notrunc 2>/dev/null
for unreadable in "" "--unreadable 15:0"; do
	expect 0 "primary in block 14, mirror in block 13" init $of_two 4 $unreadable --apply made --force new
	says "  block 15: bad (retired)"
	says "  block 15: factory"
done
# an unreadable page with another OOB is not, nor is a signature
poke new $((30 * 2112 + 2111)) '\377'
expect 0 "primary in block 14, mirror in block 13" init $of_two 4 --apply made --force new
says "  block 15: factory"
expect 0 "primary in block 15, mirror in block 14" init $of_two 4 --unreadable 15:0 --apply made --status-out made_status \
	--force new
says "entries: 16 good, 0 reserved, 0 late, 0 factory"
printf '\000\000\000\000' >expected
check "what is written reads well" cmp expected made_status
mirror 001 | dd of=new bs=2112 seek=30 conv=notrunc 2>/dev/null
poke new $((30 * 2112 + 2048)) '\000'
expect 1 "init: there is a table already" init $of_two 4 new
expect 0 "primary in block 15, mirror in block 14" init $of_two 4 --unreadable 15:0,12:0 --apply made \
	--status-out made_status --force new
printf '\001\000\000\000' >expected
check "what is not written stays unreadable" cmp expected made_status

# by a mark on the first page, on the second or on both
new_chip 16 2 0:1 3 5:1 9 9:1
bitmap_of 16 0 3 5 9 >bitmap
cp new expected
put_copy expected 15 2 1 primary 001
put_copy expected 14 2 1 mirror 001
expect 0 "pair: settled, version 1, primary in block 15, mirror in block 14" init $of_two 4 --apply made --force new
says "entries: 12 good, 0 reserved, 0 late, 4 factory"
check "the first pair of a chip with marks on first and second pages" cmp expected made
# on the second alone it does not make a block of the region readable as bad
new_chip 16 2 14:1
expect 0 "primary in block 15, mirror in block 14" init $of_two 4 --apply made --force new
says "  block 14: factory"
notes "note: block 14 of the region: marked on the second page alone, and so not readable as bad: a copy of the table may"
notes "a copy of the table may go there. A zero step on such a block keeps it out bitmap: by the marks"
new_chip 16 2 12 13 13:1 11:1
expect 0 "primary in block 15, mirror in block 14" init $of_two 4 --apply made --force new
says_not "note: "
new_chip 16 2 11:1 13:1 15:1
expect 0 "primary in block 15, mirror in block 14" init $of_two 5 --apply made --force new
notes "note: blocks 11, 13, 15 of the region: marked on the second page alone, and so not readable as bad"
# the primary's block counts as good, with its mark on the second page or on both, and no other does
bitmap_of 16 13 14 >bitmap
for marked in 15:1 "15 15:1"; do
	new_chip 16 2 13 14:1 $marked
	cp new expected
	put_copy expected 15 2 1 primary 001
	put_copy expected 14 2 1 mirror 001
	expect 0 "primary in block 15, mirror in block 14" init $of_two 4 --unreadable 15:0 --apply made --force new
	says "entries: 14 good, 0 reserved, 0 late, 2 factory"
	check "the primary's block counts as good, marked at $marked" cmp expected made
done
expect 0 "primary in block 14, mirror in block 12" init $of_two 4 --apply made --force new
says "  block 13: factory"
says_not "  block 14: factory"
says "  block 15: factory"
# a dump of one page a block does not show the marks of second pages, and does with a bitmap
dd if=new of=one_page_each bs=2112 count=16 2>/dev/null
expect_none none 2 "init: expected --bitmap, as with 1 page a block the dump does not show the marks of second pages" \
	init --pages-per-block 1 --apply none one_page_each
expect 0 "init: 4 steps, to version 1" init --pages-per-block 1 --bitmap bitmap one_page_each

# a bitmap that is told, with the dump of the region or of the chip; its marks do not count then
printf '\377\033\344\377' >bitmap
new_chip 16 2 2 14
dd if=new of=new_region bs=2112 skip=24 2>/dev/null
cp new expected
put_copy expected 15 2 1 primary 001
put_copy expected 13 2 1 mirror 001
expect 0 "pair: settled, version 1, primary in block 15, mirror in block 13" \
	init --pages-per-block 2 --bitmap bitmap --apply made --force new
says "bitmap: bitmap (told)"
says "entries: 10 good, 2 reserved, 2 late, 2 factory"
check "a bitmap that is told" cmp expected made
dd if=expected of=expected_region bs=2112 skip=24 2>/dev/null
expect 0 "pair: settled, version 1, primary in block 15, mirror in block 13" \
	init --blocks 16 --pages-per-block 2 --bitmap bitmap --apply made --force new_region
check "a bitmap that is told, with a dump of the region" cmp expected_region made
expect 0 "entries: 10 good, 2 reserved, 2 late, 2 factory" pair --blocks 16 --pages-per-block 2 made
for entry in " 5: reserved" " 6: late" "s 7-8: factory" " 9: late" " 10: reserved"; do
	says "  block$entry"
done
expect_none none 2 "init: expected --bitmap, as the last four blocks alone do not show the marks of all" \
	init --blocks 16 --pages-per-block 2 --apply none new_region

# every P and every size of the region: what was in the two blocks is erased, to their last page; other blocks stay
pattern() { # BLOCKS: a bitmap in which every byte differs from the next
	printf "$(awk -v bytes=$(($1 / 4)) 'BEGIN {
		for (i = 0; i < bytes; i++)
			printf "\\%03o", (7 * i + int(i / 256)) % 256 }')"
}
used_region() { # SIZE PAGES: of so many blocks of so many pages, none of them blank, as the file new
	ff $(($1 * $2 * 2112)) | tr '\377' 'u' >new
}
for blocks in 16 8196 16388 32768; do
	count=$(((blocks + 8191) / 8192))
	pattern $blocks >bitmap
	for size in 4 5 6 7; do
		shape="--blocks $blocks --region-blocks $size --pages-per-block $((count + 1))"
		used_region $size $((count + 1))
		cp new expected
		put_copy expected $((size - 1)) $((count + 1)) $count primary 376
		put_copy expected $((size - 2)) $((count + 1)) $count mirror 376
		expect 0 "pair: settled, version 254, primary in block $((blocks - 1)), mirror in block $((blocks - 2))" \
			init $shape --bitmap bitmap --version 254 --apply made --force new
		says "init: $((2 * count + 2)) steps, to version 254"
		says "  block $((blocks - 1)): other"
		check "the first pair, $count pages, in a region of $size blocks" cmp expected made
		expect 0 "pair: settled, version 254" pair $shape made
		check "the entries that are told are the pair's" \
			[ "$(grep '^entries: ' out)" = "$("$ream" init $shape --bitmap bitmap new | grep '^entries: ')" ]
	done
done

# a cut after every step, and in every step; then again
cut_shape() { # BLOCKS SIZE
	blocks=$1
	size=$2
	count=$(((blocks + 8191) / 8192))
	shape="--blocks $blocks --region-blocks $size --pages-per-block $((count + 1))"
	pattern $blocks >bitmap
	used_region $size $((count + 1))
	first="init $shape --bitmap bitmap --version 255"
	expect 0 "pair: settled, version 255" $first --apply whole_pair --force new
	so_far=0
	while [ $so_far -le $((2 * count + 2)) ]; do
		expect 0 "dump written: cut" $first --steps $so_far --apply cut --force new
		cut_after $so_far
		so_far=$((so_far + 1))
	done
}
cut_after() { # STEPS: are done
	block=$((blocks - 1 - $1 / (count + 1)))
	if [ "$1" -eq $((2 * count + 2)) ]; then
		says_not "cut: "
		check "all steps are the whole plan" cmp whole_pair cut
		expect_none none 1 "its pair is settled, version 255; an update marks blocks" $first --apply none cut
		return
	fi
	says "cut: $1 of $((2 * count + 2)) steps done"
	# the next step is not begun, or leaves what it is on unreadable
	page=$(($1 % (count + 1) - 1))
	torn="$block:$page"
	[ $page -ge 0 ] || torn=$(seq -s , -f "$block:%g" 0 $((count - 1)))
	if [ "$1" -le $count ]; then
		says "  no copy is good; the first pair is made from the start (ream init)"
		expect 1 "pair: refused, 7" pair $shape cut
		for unreadable in "" "--unreadable $torn"; do
			expect 0 "pair: settled, version 255" $first $unreadable --apply again --force cut
			check "a first pair cut after $1 steps is made from the start" cmp whole_pair again
		done
	else
		says "  the primary stands alone; a recovery makes the mirror (ream recover)"
		says "  block $((blocks - 1)): primary v255"
		expect 1 "pair: refused, 10" pair $shape cut
		for unreadable in "" "--unreadable $torn"; do
			expect_none none 1 "init: there is a table already, so no first pair is made" \
				$first $unreadable --apply none cut
			says "  its pair is not settled; a recovery settles it (ream recover)"
			expect 0 "pair: settled, version 255" recover $shape $unreadable --apply again --force cut
			check "a first pair cut after $1 steps is recovered" cmp whole_pair again
		done
	fi
}
cut_shape 16 4
cut_shape 8196 5
cut_shape 16388 6
cut_shape 32768 7
used_region 4 2
expect 0 "cut: 0 of 4 steps done" init --blocks 16 --pages-per-block 2 --bitmap status --steps 0 --apply cut --force new
check "no step leaves the dump as it is" cmp new cut
# a page that is unreadable stays so in the status file, unless its block is erased
expect 0 "cut: 1 of 4 steps done" init --blocks 16 --pages-per-block 2 --bitmap status --unreadable 15:0,14:0 --steps 1 \
	--apply cut --status-out cut_status --force new
printf '\000\000\001\000' >expected
check "the status file of a cut" cmp expected cut_status
# the cut of a first pair that has a page alone is told beside Linux's
new_chip 8196 2 17 8194
bitmap_of 8196 17 8194 >bitmap
expect 0 "cut: 2 of 6 steps done" init --pages-per-block 2 --steps 2 --apply cut --force new
expect 0 "init: 6 steps, to version 1" init --pages-per-block 2 --apply made --force cut
notes "note: block 8195 is a copy with its header on page 0 only, as Linux writes it above 8,192 blocks, as a power cut in the"
notes "making of a first pair leaves it, and as a chip of 8,192 blocks or fewer has it."
says "  block 17: factory"
says "  block 8194: factory"
put_copy new 8195 2 2 primary 001
put_copy new 8193 2 2 mirror 001
check "the first pair on a chip of 8196 blocks, by its marks, after a cut" cmp new made
rm new cut made

# a table that is there already: nothing is written, and it is told what is there and what to do
printf '\377\377\377\377' >bitmap
for dump in settled whole newer one_mirror differing several opposite no_target; do
	told="$chip --bitmap bitmap"
	[ $dump != whole ] || told="--pages-per-block 1"
	expect_none none 1 "init: there is a table already, so no first pair is made" \
		init $told --apply none --status-out none --pages none $dump
	says_not "steps"
	case $dump in
	settled | whole) says "  its pair is settled, version 5; an update marks blocks in it (ream update)" ;;
	several) says "recovery: refused, 8: there are two or more good copies of one kind" ;;
	opposite) says "recovery: refused, 9: the versions of primary and mirror are 128 apart" ;;
	no_target) says "recovery: refused, 11: there is no block to write a copy to" ;;
	*) says "  its pair is not settled; a recovery settles it (ream recover)" ;;
	esac
done
says "  every block but the good copy's is readable as bad"
says "  block 12: primary v5"
expect 1 "init: there is a table already" init $chip settled
expect 0 "init: 4 steps" init $chip --bitmap bitmap --unreadable 12:0,15:0 settled
# numbers that the dump contradicts
make_dump 16 64 5 6 >below
expect_warned 0 "last four blocks; --region-blocks 6 would have it found" "init: 4 steps, to version 1" init below
expect 1 "init: there is a table already" init --region-blocks 6 below
expect_warned 1 "behind the bitmap of 8 blocks" "init: there is a table already" init --blocks 8 last_four

# the pages, as files
new_chip 16 2 14
bitmap_of 16 14 >bitmap
expect 0 "     1  write     15     0  0x00000f000  step-01-block-15-page-0.bin" \
	init --pages-per-block 2 --pages first_images new
says "page written: first_images/step-03-block-13-page-0.bin"
cp new expected
put_copy expected 15 2 1 primary 001
put_copy expected 13 2 1 mirror 001
dd if=first_images/step-01-block-15-page-0.bin of=new bs=2112 seek=30 conv=notrunc 2>/dev/null
dd if=first_images/step-03-block-13-page-0.bin of=new bs=2112 seek=26 conv=notrunc 2>/dev/null
check "the pages of a first pair, written by hand" cmp expected new
check "a file for each page of the first pair" [ "$(ls first_images | wc -l)" -eq 2 ]
pattern 32768 >bitmap
used_region 7 4
expect 0 "init: 10 steps, to version 1" init --blocks 32768 --region-blocks 7 --pages-per-block 4 --bitmap bitmap \
	--pages all_first --apply made --force new
check "all pages of the longest first pair" [ "$(ls all_first | wc -l)" -eq 8 ]
cat all_first/step-0[1-4]* >expected
tail -c 8448 made >found
check "the primary's pages in their names' order are the copy" cmp expected found

# wrong arguments and files
new_chip 16 2 14
printf '\377\377\377\377' >bitmap
first="init --pages-per-block 2 --apply none"
for len in 0 3 5 16; do
	ff 16 | dd bs=1 count=$len of=other_bitmap 2>/dev/null
	expect_none none 2 "other_bitmap: ends at offset $len, expected 4 bytes, two bits for each of the chip's 16 blocks (" \
		$first --bitmap other_bitmap new
	check "the refusal is named" grep -qF -e "(refusal 1: a lent buffer has the wrong length)" err
done
expect_none none 2 "missing: cannot be read" $first --bitmap missing new
expect_none none 2 ".: expected a regular file or a pipe" $first --bitmap . new
expect_none none 2 "--bitmap: expected a value, found an empty one" $first --bitmap= new
for version in 256 -1 99999999999999999999999; do
	expect_none none 2 "init: --version $version: out of range, expected a number from 0 to 255 (refusal 2: a number is" \
		$first --version=$version new
done
expect_none none 2 "--version 1.0: expected a number from 0 to 255" $first --version 1.0 new
for block in 0 11 16 1022 32767; do
	expect_none none 2 "init: --block $block: out of range, expected one of the last four blocks, 12 to 15" \
		$first --block $block new
done
for block in 32768 -1 99999999999999999999999; do
	expect_none none 2 "init: --block $block: out of range, expected a number from 0 to 32767" $first --block=$block new
done
expect_none none 2 "--block x: expected a number from 0 to 32767" $first --block x new
expect_none none 2 "init: --block 14: is readable as bad, expected one of the last four blocks, 12 to 15, that is not" \
	$first --block 14 new
expect_none none 2 "init: --block 8: out of range, expected one of the last seven blocks, 9 to 15" \
	$first --region-blocks 7 --block 8 new
for steps in 5 10; do
	expect_none none 2 "init: --steps $steps: expected at most 4, as the plan has no more" $first --steps $steps new
done
for steps in 11 -1; do
	expect_none none 2 "init: --steps $steps: out of range, expected a number from 0 to 10" $first --steps=$steps new
done
expect 2 "init: --steps: expected --apply beside it" init --pages-per-block 2 --steps 2 new
expect_none none 2 "init: --status-out: expected --apply beside it" init --pages-per-block 2 --status-out none new
for option in "--bitmap bitmap" "--version 1" "--block 15" "--steps 1" "--apply none" "--pages none_pages" "--json"; do
	expect_none none 2 "init: ${option%% *}: is given twice; expected it once" \
		init --pages-per-block 2 $option $option new
done
for option in "--bit bitmap" "--vers 1" "--bloc 15" "--step 1"; do
	expect_none none 2 "${option%% *}: no such option" $first $option new
done
expect_none none 2 "--failed: no such option" $first --failed 1 new
expect_none none 2 "--mark-late: no such option" $first --mark-late 1 new
expect 2 "init: no file; expected DUMP as the last argument" init --pages-per-block 2
expect 2 "one argument too many" init --pages-per-block 2 new new
expect 2 "new: ends at offset 67584; expected 135168 bytes, all 32 blocks of 2 pages" init --blocks 32 --pages-per-block 2 new
# its files
expect_none none 2 "bitmap: is the file that is read" $first --status-out bitmap --bitmap bitmap --force new
expect_none none 2 "./bitmap: is the file that is read, bitmap" $first --status-out ./bitmap --bitmap bitmap --force new
expect 2 "new: is the file that is read" init --pages-per-block 2 --apply new --force new
printf '\377\377\377\377' >expected
check "a bitmap that is read stays as it is" cmp expected bitmap
for other in "- bitmap and the dump" "new bitmap and the status file"; do
	options="--bitmap - "
	[ "${other%% *}" = - ] || options="--bitmap - --status -"
	expect_none none 2 "-: is named for two files to read, the ${other#* }" $first $options "${other%% *}"
done

# ---- first

marks_of() { # BLOCKS BAD..: the marks of a chip with these blocks marked, as new_chip marks them
	printf "$(echo "$*" | tr ' ' '\n' | awk -F : 'NR == 1 { blocks = $1; next } { bad[2 * $1 + $2] = 1 } END {
		for (i = 0; i < 2 * blocks; i++)
			printf "\\%s", (i in bad ? "000" : "377") }')"
}
marks_in() { # FILE PAGES: the marks of a dump
	printf "$(od -An -v -to1 -w2112 "$1" | cut -c 8194-8196 | awk -v pages="$2" '(NR - 1) % pages < 2 { printf "\\%s", $1 }')"
}
first_is() { # MARKS LINES ARGUMENTS..: what is told, with ; between the lines, and the bitmap, which is in the file right
	marked_at=$1
	echo "$2" | tr ';' '\n' >right_lines
	shift 2
	rm -f first_bitmap
	expect 0 "bitmap written: first_bitmap" first --bitmap-out first_bitmap "$@"
	check "ream first $*: the bitmap of marks at $marked_at" cmp right first_bitmap
	sed '/^bad: /,/^bitmap written/!d; /^bitmap written/d' out >told
	check "ream first $*: what is told of marks at $marked_at" cmp right_lines told
}
# A dump of a chip with these blocks marked, and its marks alone.
first_of() { # LINES BLOCKS PAGES BAD..
	lines=$1
	blocks=$2
	of_block=$3
	shift 3
	new_chip "$blocks" "$of_block" "$@"
	marks_of "$blocks" "$@" >marks
	bitmap_of "$blocks" "$@" >right
	first_is "$*" "$lines" --pages-per-block "$of_block" new
	first_is "$*" "$lines" --marks marks
}

first_of "bad: none of 16 blocks" 16 2
says "dump: 16 blocks (by its size), of each the marks of its first and second page"
says "region: the last four blocks, 12-15 (assumed)"
cp new new_before
expect 0 "bad: none of 16 blocks" first --pages-per-block 2 new
says "chip: 16 blocks (by the dump's size), 2 pages a block (told)"
says "dump: the whole chip; a copy of the table fills 1 page"
says "region: the last four blocks, 12-15 (assumed)"
says_not "note: "
says_not "written"
check "the dump that is read stays as it is" cmp new_before new
expect 0 "dump: 16 blocks (told), of each the marks" first --marks --blocks 16 --region-blocks 7 marks
says "region: the last seven blocks, 9-15 (told)"
first_of "bad: 4 of 16 blocks;  block 3: first page;  block 7: second page;  blocks 9-10: both pages" \
	16 2 3 7:1 9 9:1 10 10:1
marks_in new 2 >marks_found
check "a dump has the marks that it is made with" cmp marks marks_found
# blocks beside each other that are marked alike are one line, and others are not
first_of "bad: 6 of 16 blocks;  block 4: first page;  block 5: second page;  blocks 6-7: both pages;  blocks 8-9: first page" \
	16 2 4 5:1 6 6:1 7 7:1 8 9
first_of "bad: 3 of 16 blocks;  blocks 0-1: second page;  block 15: both pages" 16 2 0:1 1:1 15 15:1
every=$(seq -s ' ' 0 15)
first_of "bad: 16 of 16 blocks;  blocks 0-15: first page" 16 2 $every
first_of "bad: 16 of 16 blocks;  blocks 0-15: second page" 16 2 $(seq -f %g:1 -s ' ' 0 15)
first_of "bad: 16 of 16 blocks;  blocks 0-15: both pages" 16 2 $every $(seq -f %g:1 -s ' ' 0 15)
# every block, of the smallest chip, whatever the pages of a block are
for of_block in 2 3; do
	block=0
	while [ $block -lt 8 ]; do
		first_of "bad: 1 of 8 blocks;  block $block: first page" 8 $of_block $block
		first_of "bad: 1 of 8 blocks;  block $block: second page" 8 $of_block $block:1
		first_of "bad: 1 of 8 blocks;  block $block: both pages" 8 $of_block $block $block:1
		block=$((block + 1))
	done
done
first_of "bad: 2 of 8 blocks;  block 0: second page;  block 7: first page" 8 64 0:1 7
expect 0 "chip: 8 blocks (by the dump's size), 64 pages a block (assumed)" first new
says "  block 0: second page"
# a mark on a later page is none
first_of "bad: 1 of 8 blocks;  block 1: second page" 8 4 1:1
poke new $((5 * 4 * 2112 + 2 * 2112 + 2048)) '\000'
poke new $((6 * 4 * 2112 + 3 * 2112 + 2048)) '\000'
first_is "later pages" "bad: 1 of 8 blocks;  block 1: second page" --pages-per-block 4 new
# nor is any byte but OOB 0
dd if=/dev/zero of=new bs=2112 count=24 2>/dev/null
for block in 0 1 2 3 4 5 6 7; do
	poke new $((block * 3 * 2112 + 2048)) '\001'
	poke new $(((block * 3 + 1) * 2112 + 2048)) '\200'
done
bitmap_of 8 >right
first_is "no OOB 0" "bad: none of 8 blocks" --pages-per-block 3 new
marks_in new 3 >marks
first_is "no OOB 0" "bad: none of 8 blocks" --marks marks
# 01 to FE are no marks
byte_values() { printf "$(awk 'BEGIN { for (i = 0; i < 256; i++) printf "\\%03o", i }')"; }
bitmap_of 128 0 >right
byte_values >marks
first_is "every value" "bad: 1 of 128 blocks;  block 0: first page" --marks marks
{ printf '\377'; byte_values | dd bs=255 count=1 2>/dev/null; } >marks
first_is "every value" "bad: 1 of 128 blocks;  block 0: second page" --marks marks
new_chip 16 2
block=0
for value in 000 001 002 004 010 020 040 100 200 017 360 177 277 357 373 376; do
	poke new $(((2 * block) * 2112 + 2048)) "\\$value"
	poke new $(((2 * ((block + 2) % 16) + 1) * 2112 + 2048)) "\\$value"
	block=$((block + 1))
done
bitmap_of 16 0 2 >right
first_is "sixteen values" "bad: 2 of 16 blocks;  block 0: first page;  block 2: second page" --pages-per-block 2 new
marks_in new 2 >marks
first_is "sixteen values" "bad: 2 of 16 blocks;  block 0: first page;  block 2: second page" --marks marks
# chips of other sizes
for blocks in 12 20 1020 4096 8192 8196 16388 32764 32768; do
	last=$((blocks - 1))
	marks_of $blocks 0 1:1 $((blocks / 2)):1 $last $last:1 >marks
	bitmap_of $blocks 0 1 $((blocks / 2)) $last >right
	lines="bad: 4 of $blocks blocks;  block 0: first page;  block 1: second page;  block $((blocks / 2)): second page"
	lines="$lines;  block $last: both pages"
	first_is "first and last blocks" "$lines" --marks marks
	first_is "first and last blocks" "$lines" --marks --blocks $blocks marks
done
lines="bad: 5 of 1024 blocks;  block 0: both pages;  block 511: first page;  blocks 512-513: second page"
lines="$lines;  block 1023: second page"
first_of "$lines" 1024 2 0 0:1 511 512:1 513:1 1023:1
# the region's size does not matter
for size in 4 5 6 7; do
	first_is "a region of $size" "$lines" --region-blocks $size --pages-per-block 2 new
	first_is "a region of $size" "$lines" --region-blocks $size --marks marks
	says "region: the last $(word $size) blocks, $((1024 - size))-1023 (told)"
done

# what init makes by the marks, it makes by this bitmap; only the primary's block counts as good by the marks
for bads in "" 3 "3:1" "0 5:1 9 9:1 14" "1:1 12 13" "2 13 13:1 15:1"; do
	new_chip 16 2 $bads
	expect 0 "bitmap written: first_bitmap" first --bitmap-out first_bitmap --force --pages-per-block 2 new
	[ "$bads" != "2 13 13:1 15:1" ] || poke first_bitmap 3 '\363'
	expect 0 "bitmap: by the marks in the dump" init --pages-per-block 2 --apply by_marks --force new
	expect 0 "bitmap: first_bitmap (told)" init --pages-per-block 2 --bitmap first_bitmap --apply by_bitmap --force new
	check "a pair by the first bitmap is the one by the marks: $bads" cmp by_marks by_bitmap
done

# blocks of the region that are marked on their second page alone are not readable as bad
new_chip 16 2 9:1 11:1 14 14:1 15:1
marks_in new 2 >marks
for shown in "--pages-per-block 2 new" "--marks marks"; do
	expect 0 "bad: 4 of 16 blocks" first $shown
	notes "note: block 15 of the region: marked on the second page alone, and so not readable as bad: a copy of the table"
	expect 0 "bad: 4 of 16 blocks" first --region-blocks 7 $shown
	notes "note: blocks 9, 11, 15 of the region: marked on the second page alone, and so not readable as bad"
done
new_chip 16 2 11:1 12 15 15:1
expect 0 "bad: 3 of 16 blocks" first --pages-per-block 2 new
says_not "note: "

# a chip that is not new
for copies in "1 2" "2 1" "4 1" "3 0" "0 3"; do
	make_dump 16 2 $copies >used
	expect 0 "bad: none of 16 blocks" first --pages-per-block 2 used
	notes "note: there is a table already (ream pair), so the chip is not new. The marks of a chip in use are not all the"
	notes "are not all the factory's: a block that was retired shows the same bad: none"
done
{ ff $((12 * 4224)); primary 005; blank; primary 006; blank; mirror 005; blank; blank | zeroed; blank; } >used
expect_none none 0 "  block 15: first page" first --pages-per-block 2 used
notes "note: there is a table already (ream pair), so the chip is not new."
poke used $((12 * 4224 + 2062)) 'bbt0'
poke used $((13 * 4224 + 2062)) 'bbt0'
poke used $((14 * 4224 + 2062)) 'bbt0'
expect 0 "  block 15: first page" first --pages-per-block 2 used
says_not "note: "
new_chip 8196 2 17:1
primary 005 | dd of=new bs=2112 seek=$((8195 * 2)) conv=notrunc 2>/dev/null
expect 0 "  block 17: second page" first --pages-per-block 2 new
notes "note: block 8195 is a copy with its header on page 0 only, as Linux writes it above 8,192 blocks"
notes_not "there is a table"
rm new
# numbers that the dump contradicts
expect_warned 0 "last four blocks; --region-blocks 6 would have it found" "bad: none of 16 blocks" first below
make_dump 16 128 1 2 >long_blocks
expect_warned 0 "long_blocks: 64 pages a block are assumed, but every copy of the table stands right for 128 pages" \
	"bad: none of 32 blocks" first long_blocks
expect 0 "bad: none of 16 blocks" first --pages-per-block 128 long_blocks
rm long_blocks

# wrong arguments and files
new_chip 16 2 3 5:1
marks_of 16 3 5:1 >marks
first="first --bitmap-out none"
dd if=new of=new_region bs=4224 skip=12 2>/dev/null
expect_none none 2 "first: expected all pages of the whole chip, or --marks, as the last four blocks alone do not show the" \
	$first --blocks 16 --pages-per-block 2 new_region
check "the complaint tells what they do not show" grep -qF -e "alone do not show the marks of all" err
check "there is no other complaint" [ "$(wc -l <err)" -eq 1 ]
dd if=new of=new_region bs=4224 skip=11 2>/dev/null
expect_none none 2 "as the last five blocks alone do not show the marks of all" \
	$first --blocks 16 --region-blocks 5 --pages-per-block 2 new_region
expect_none none 2 "has 5 blocks of 2 pages; expected a whole chip, a multiple of 4 blocks" \
	$first --pages-per-block 2 new_region
expect_none none 2 "first: expected all pages of the whole chip, or --marks, as with 1 page a block the dump does not show" \
	$first --pages-per-block 1 new
check "the complaint tells what it does not show" grep -qF -e "the dump does not show the marks of second pages" err
check "there is no other complaint" [ "$(wc -l <err)" -eq 1 ]
expect_none none 2 "new: ends at offset 67584, inside block 0; expected whole blocks of 135168 bytes, 64 pages of 2112 (" \
	$first new
expect_none none 2 "new: ends at offset 67584; expected 135168 bytes, all 32 blocks of 2 pages, or 16896 bytes, the last four" \
	$first --blocks 32 --pages-per-block 2 new
expect_none none 2 "--pages-per-block 1: expected at least 2, the pages of a table of 8196 blocks" \
	$first --blocks 8196 --pages-per-block 1 new
for blocks in 12 20; do
	expect_none none 2 "marks: ends at offset 32, expected $((2 * blocks)) bytes, 2 marks for each of the chip's $blocks blocks (" \
		$first --marks --blocks $blocks marks
	check "the refusal is named" grep -qF -e "(refusal 1: a lent buffer has the wrong length)" err
done
: >empty
expect_none none 2 "empty: ends at offset 0, expected 32 bytes" $first --marks --blocks 16 empty
expect_none none 2 "empty: is empty; expected 2 marks for each block of a chip" $first --marks empty
for len in 1 15 17 65537; do
	ff $len >other_marks
	expect_none none 2 "other_marks: ends at offset $len, inside block $((len / 2)); expected 2 marks for each block of a chip (" \
		$first --marks other_marks
	check "the refusal is named" grep -qF -e "(refusal 1: a lent buffer has the wrong length)" err
done
for len in 2 8 14 18 20 36 65538 65544; do
	ff $len >other_marks
	expect_none none 2 "other_marks: has $len bytes, the marks of $((len / 2)) block" $first --marks other_marks
	check "the range is told" grep -qF -e "; expected those of a multiple of 4 blocks from 8 to 32768 (refusal 2: a number is" err
done
expect_none none 2 "--pages-per-block 2: expected it without --marks, as marks alone have no pages" \
	$first --marks --pages-per-block 2 marks
ff 16 >other_marks
ff $((16 * 2112)) >other_dump
for size in 5 6 7; do
	expect_none none 2 "--region-blocks $size: expected at most 4, half of the chip's 8 blocks (refusal 2: a number is" \
		$first --marks --region-blocks $size other_marks
	expect_none none 2 "--region-blocks $size: expected at most 4, half of the chip's 8 blocks (refusal 2: a number is" \
		$first --pages-per-block 2 --region-blocks $size other_dump
done
for size in 0 3 8 -4; do
	expect_none none 2 "first: --region-blocks $size: out of range, expected a number from 4 to 7 (refusal 2: a number" \
		$first --marks --region-blocks=$size marks
done
for blocks in 0 4 10 32772 99999999999 99999999999999999999999 -8; do
	expect_none none 2 "first: --blocks $blocks: out of range, expected a multiple of 4 from 8 to 32768 (refusal 2: a number" \
		$first --marks --blocks=$blocks marks
done
for option in --marks "--bitmap-out none" --force "--blocks 16" "--region-blocks 4" "--pages-per-block 2" --json; do
	expect_none none 2 "first: ${option%% *}: is given twice; expected it once" first $option $option new
done
for option in "--mark" "--bitmap none" "--bitmap-o none" "--forc"; do
	expect_none none 2 "first: ${option%% *}: no such option; --" first $option marks
done
for option in "--status status" "--unreadable 15:0" "--apply none" "--spares" "--mark-late 3"; do
	expect_none none 2 "first: ${option%% *}: no such option" $first $option marks
done
expect_none none 2 "first: --marks: takes no value" $first --marks=marks new
expect_none none 2 "first: --bitmap-out: expected a value, found an empty one" first --bitmap-out= new
expect_none none 2 "first: no file; expected DUMP as the last argument" $first --marks
expect_none none 2 "one argument too many" $first --marks marks marks
expect_none none 2 "missing: cannot be read" $first --marks missing
expect_none none 2 "missing: cannot be read" $first missing
expect_none none 2 ".: expected a regular file or a pipe" $first --marks .
# its file
cp marks marks_before
cp new new_before
expect 2 "marks: is the file that is read, ./marks" first --marks --bitmap-out marks --force ./marks
expect 2 "./new: is the file that is read, new" first --pages-per-block 2 --bitmap-out ./new --force new
check "marks that are read stay as they are" cmp marks_before marks
check "a dump that is read stays as it is" cmp new_before new
bitmap_of 16 3 5 >right
echo precious >precious
expect 2 "precious: is there already; --force replaces it" first --marks --bitmap-out precious marks
check "a file that is there stays" grep -q precious precious
expect 0 "bitmap written: precious" first --marks --bitmap-out precious --force marks
check "--force replaces it" cmp right precious
expect 2 ".: is there and is no regular file" first --marks --bitmap-out . --force marks
expect_none missing/none 2 "missing/none: cannot be written" first --marks --bitmap-out missing/none marks
ff 65536 >other_marks
(
	trap '' XFSZ
	ulimit -f 4
	"$ream" first --marks --bitmap-out none other_marks >out_file 2>err_file
	[ $? -eq 2 ] && [ ! -s out_file ] && grep -q "^ream: none: cannot be written.*: File too large" err_file
)
check "a bitmap that cannot be written whole" [ $? -eq 0 ]
check "a bitmap that cannot be written whole is not there" [ ! -e none ]
check "a failed run leaves no temporary file" test -z "$(find . -name '*.??????')"

# ---- wrong arguments and files

for blocks in 0 4 10 32772 99999999999 99999999999999999999999 -8; do
	expect 2 "pair: --blocks $blocks: out of range, expected a multiple of 4 from 8 to 32768 (refusal 2: a number" \
		pair --blocks "$blocks" settled
done
for size in 0 3 8 99999999999 99999999999999999999999 -4; do
	for command in "pair settled" "update --mark-late 1 --apply none settled" "recover --apply none settled" \
		"init --apply none settled" "first --bitmap-out none settled" "simulate --dump none"; do
		expect_none none 2 "--region-blocks $size: out of range, expected a number from 4 to 7 (refusal 2: a number" \
			$command --region-blocks "$size"
	done
done
expect 2 "settled: has 4 blocks of 1 page; expected a whole chip" pair --pages-per-block 1 settled
expect 2 "settled: ends at offset 8448, inside block 0; expected whole blocks of 135168 bytes" pair settled
expect 2 "settled: ends at offset 8448; expected 67584 bytes, all 16 blocks of 2 pages, or 16896 bytes, the last four" \
	pair --blocks 16 --pages-per-block 2 settled
says_wrong="refusal 1: a lent buffer has the wrong length"
dd if=settled of=short bs=8447 count=1 2>/dev/null
expect 2 "$says_wrong" pair $chip short
expect 2 "short: ends at offset 8447" pair $chip short
: >empty
expect 2 "empty: ends at offset 0" pair $chip empty
expect 2 "empty: has 0 blocks" pair empty
expect 2 "--pages-per-block 3: expected at least 4" pair --blocks 32768 --pages-per-block 3 settled
expect 2 "missing: cannot be read" pair $chip missing
expect 2 ".: expected a regular file" pair $chip .
printf '\000\000\000' >short_status
expect 2 "short_status: ends at offset 3, expected 4 bytes" pair $chip --status short_status settled
printf '\000\000\002\000' >wrong_status
expect 2 "wrong_status: offset 2 has 02, expected 00 (read well) or 01 (unreadable) (refusal 2" \
	pair $chip --status wrong_status settled
expect 2 "missing: cannot be read" pair $chip --status missing settled

expect 2 "no command"
expect 2 "pear: no such command; expected pair, first, init, update, recover, page, boot or simulate (ream --help)" pear
expect 2 "--block: no such option; --blocks has to be named in full" pair --block 16 settled
expect 2 "--block=16: no such option; --blocks has to be named in full" pair --block=16 settled
expect_none 64 2 "--page: no such option" recover --page 64 settled
expect 2 "--pages: no such option; --pages-per-block has to be named in full" pair --pages 64 settled
expect 2 "--forc: no such option; --force has to be named in full" recover $chip --forc settled
expect 2 "--blocky: no such option" pair --blocky 16 settled
expect 2 "--st: no such option" recover --st none settled
expect 2 "-b: no such option" pair -b settled
expect 2 "-8: no such option" pair -8 settled
expect 2 "--blocks: expected a value after it" pair --blocks
expect 2 "--blocks x: expected a multiple of 4 from 8 to 32768" pair --blocks x settled
expect 2 "--region-blocks x: expected a number from 4 to 7" pair --region-blocks x settled
expect 2 "--region-blocks 5.0: expected a number from 4 to 7" pair --region-blocks 5.0 settled
expect 2 "--region-blocks: expected a value after it" pair --region-blocks
expect 2 "--region: no such option; --region-blocks has to be named in full" pair --region 5 settled
expect 2 "--region-blocks: no such option" page --region-blocks 4 settled
expect 2 "--pages-per-block 0: out of range, expected a number from 1 to 1024" pair --pages-per-block 0 settled
expect 2 "--pages-per-block -8: out of range, expected a number from 1 to 1024" pair --pages-per-block=-8 settled
expect 2 "no file; expected DUMP" pair $chip
expect 2 "one argument too many" pair $chip settled settled
expect 2 "--force: takes no value" recover $chip --force=yes settled
expect 2 "--apply: expected a value, found an empty one" recover $chip --apply= settled
expect 2 "expected --mark-late" update $chip settled
for list in x '1,' ,1 1-x 3-1 1.5 -1; do
	expect 2 "--mark-late" update $chip --mark-late "$list" settled
done
expect 2 "--mark-late 5,: nothing stands after the last comma; expected blocks or ranges" \
	update $chip --mark-late 5, settled
expect 2 "--mark-late ,5: nothing stands before the first comma" update $chip --mark-late ,5 settled
expect 2 "--mark-late 5,,6: nothing stands between two commas" update $chip --mark-late 5,,6 settled
expect 2 "--mark-late 5,x6: cannot take \"x6\"" update $chip --mark-late 5,x6 settled
expect 2 "--mark-late 9-7: 9-7 runs backwards" update $chip --mark-late 9-7 settled
for list in 3-16 16 -8 99999999999999999999999 3-99999999999999999999999; do
	expect 2 "--mark-late $list: $list is out of range, expected blocks from 0 to 15 (refusal 2" \
		update $chip --mark-late "$list" settled
done
expect 2 "--status-out: expected --apply beside it" recover $chip --status-out none settled

# ---- pipes

piped() { # STATUS WORDS FILE ARGUMENTS..: as expect, from a pipe
	status=$1
	words=$2
	file=$3
	shift 3
	cat "$file" | "$ream" "$@" >out 2>err
	check "$file | ream $*: exit status" [ $? -eq "$status" ]
	check "$file | ream $*: expected: $words" grep -qF -e "$words" out err
}
"$ream" pair $chip newer >by_name
piped 1 "pair: refused, 10" newer pair $chip -
check "a pipe's dump is read as a file's" cmp by_name out
piped 0 "pair: settled, version 5" settled pair $chip -
piped 0 "dump: the whole chip" whole pair --pages-per-block 1 -
rm -f piped_out
piped 0 "dump written: piped_out" newer recover $chip --apply piped_out -
check "a pipe's dump is recovered as a file's" cmp recovered piped_out
piped 0 "update: 4 steps" settled update $chip --mark-late 5 -
new_chip 16 2 14
"$ream" init --pages-per-block 2 --apply by_name --force new >out
rm -f piped_out
piped 0 "pair: settled, version 1" new init --pages-per-block 2 --apply piped_out -
check "a pipe's dump gets its first pair as a file's" cmp by_name piped_out
piped 0 "bitmap: standard input (told)" bitmap init --pages-per-block 2 --bitmap - new
piped 0 "  block 14: first page" new first --pages-per-block 2 --bitmap-out piped_bitmap -
bitmap_of 16 14 >expected
check "a pipe's dump gives its first bitmap as a file's" cmp expected piped_bitmap
piped 0 "  block 5: second page" marks first --marks --bitmap-out piped_bitmap --force -
bitmap_of 16 3 5 >expected
check "a pipe's marks give a first bitmap as a file's" cmp expected piped_bitmap
piped 2 "standard input: ends at offset 32, expected 40 bytes" marks first --marks --blocks 20 -
piped 2 "standard input: ends at offset 8447" short pair $chip -
piped 1 "block 15: unreadable" status pair $chip --status - settled
"$ream" pair $chip - <settled >out 2>err
check "the standard input may be a file" grep -qF -e "pair: settled" out
mkfifo pipe
cat settled >pipe &
expect 0 "pair: settled" pair $chip pipe
wait
expect 2 "-: is named for two files to read" pair $chip --status - -
"$ream" pair $chip - </dev/null >out 2>err
check "the standard input has to be a file or a pipe" grep -qF -e "standard input: expected a regular file or a pipe" err
(
	trap '' XFSZ
	ulimit -f 4
	cat settled | "$ream" pair $chip - >/dev/null 2>err_file
	[ $? -eq 2 ] && grep -q "^ream: standard input: cannot be kept in .*, at offset .*: File too large" err_file
)
check "a pipe that cannot be kept" [ $? -eq 0 ]

# ---- output files

cp settled input
expect 2 "input: is the file that is read" recover $chip --apply input --force input
ln -s input link
expect 2 "link: is the file that is read" recover $chip --apply link --force input
check "the input is as it was" cmp settled input
expect 2 "status: is the file that is read" \
	recover $chip --status status --apply none --status-out status --force settled
echo precious >there
expect 2 "there: is there already; --force replaces it" recover $chip --apply there newer
check "a file that is there stays" grep -q precious there
expect_none none 2 "there: is there already" recover $chip --apply none --status-out there newer
expect 0 "dump written: there" recover $chip --apply there --force newer
check "--force replaces it" cmp recovered there
mkdir folder
expect 2 "folder: is there and is no regular file" recover $chip --apply folder --force newer
expect_none missing/none 2 "missing/none: cannot be written" recover $chip --apply missing/none newer
expect_none none 2 "missing/status: cannot be written" \
	recover $chip --apply none --status-out missing/status newer
expect_none none 2 "none: is named for two files" recover $chip --apply none --status-out none newer
mkdir -p folder/within
for other in ./none folder/../none "$PWD/none" folder/within/../../none; do
	expect_none none 2 "$other: is named for two files to write, the other time as none" \
		recover $chip --apply none --status-out "$other" newer
done
expect_none none 2 "is named for two files to write" simulate --dump none --status-out ./none
expect_none none 2 "is named for two files to write" simulate --svg folder/none --status-out ./folder/none
ln -s folder other_folder
expect_none folder/none 2 "other_folder/none: is named for two files" \
	recover $chip --apply folder/none --status-out other_folder/none newer
echo precious >one_name
ln one_name two_names
expect 2 "two_names: is named for two files" recover $chip --apply one_name --status-out two_names --force newer
check "a file under two names stays" grep -q precious one_name
for other in ./input folder/../input "$PWD/input"; do
	expect 2 "$other: is the file that is read, input" recover $chip --apply "$other" --force input
done
expect 2 "input: is the file that is read, ./input" recover $chip --apply input --force ./input
expect 2 "input: is the file that is read, link" recover $chip --apply input --force link
"$ream" recover $chip --apply input --force - <input >out 2>err
check "the standard input is a file that is read" grep -qF -e "input: is the file that is read, standard input" err
expect 2 "./status: is the file that is read" \
	recover $chip --status status --apply none --status-out ./status --force settled
check "the input is as it was" cmp settled input

# nothing is told before the path of an output is refused
for command in "recover $chip --apply there newer" "update $chip --mark-late 1 --apply missing/none settled" \
	"recover $chip --apply none --status-out there newer" "init --pages-per-block 2 --apply there new" \
	"first --marks --bitmap-out there marks" "first --pages-per-block 2 --bitmap-out missing/none new" \
	"simulate --svg there" "page --repaired there page"; do
	{ ff 512; printf '\000\000\001\243\001\377\126\000\377\377\377\000\142\377\377\377'; } >page
	"$ream" $command >out 2>err
	check "ream $command: exit status 2" [ $? -eq 2 ]
	check "ream $command: nothing is told before its output is refused" [ ! -s out ]
	check "ream $command: says why" [ -s err ]
done
(
	trap '' XFSZ
	ulimit -f 4
	"$ream" recover $chip --apply none newer >/dev/null 2>err_file
	[ $? -eq 2 ] && grep -q "^ream: none: cannot be written.*: File too large" err_file
)
check "a file that cannot be written whole" [ $? -eq 0 ]
check "a file that cannot be written whole is not there" [ ! -e none ]
if [ -w /dev/full ]; then
	"$ream" pair $chip settled >/dev/full 2>err
	check "standard output that cannot be written" [ $? -eq 2 ]
fi

# ---- signals, and how far it is

# A run that waits in its output, with its files begun: it has more to say than a pipe holds that nobody reads.
begun() { find signals -name '*.??????' | wc -l; }
end_by() { # SIGNAL NUMBER COMMAND..: the command is ended by the signal, and leaves no file
	signal=$1
	number=$2
	shift 2
	exec 3<>unread
	"$@" update --blocks 32768 --pages-per-block 4 --mark-late 0-32767 --apply signals/out \
		--status-out signals/status --pages signals/pages large >unread 2>err &
	run=$!
	tries=0
	until [ "$(begun)" -eq 10 ] || [ $tries -eq 100 ]; do
		sleep 0.1
		tries=$((tries + 1))
	done
	check "a run that waits has its files begun" [ "$(begun)" -eq 10 ]
	kill -s "$signal" $run
	{ wait $run; ended=$?; } 2>/dev/null
	exec 3<&-
	check "a run is ended by SIG$signal: $ended" [ $ended -eq $((128 + number)) ]
	check "SIG$signal leaves no file" [ -z "$(find signals -mindepth 1)" ]
}
mkfifo unread
mkdir signals
end_by TERM 15 "$ream"
# a shell has its background ignore SIGINT, and nohup all that it starts SIGHUP
if env --default-signal=HUP,INT true 2>/dev/null; then
	end_by HUP 1 env --default-signal=HUP "$ream"
	end_by INT 2 env --default-signal=INT "$ream"
else
	skipped "a hangup and an interrupt: env cannot give signals back"
fi

# Only a terminal is told, and only from the second second on.
slowly() { cat no_copy; sleep 1.2; ff 1; }
slowly | "$ream" pair $chip - >out 2>err
check "who is no terminal is not told how far it is" [ "$(wc -l <err)" -eq 1 ]
check "a pipe's length is judged" grep -qF -e "standard input: ends at offset 8449; expected 33792 bytes" err
if command -v script >/dev/null; then
	cat >slow.sh <<-END
		{ cat no_copy; sleep 1.2; printf x; } | "$ream" pair $chip - >slow.out
		"$ream" pair $chip settled >slow.out
	END
	script -qec "sh slow.sh" /dev/null >told 2>&1 </dev/null
	check "a terminal is told how far it is" grep -qF -e "ream: reading: 0 MB" told
	check "a terminal is not told of what is done soon" [ "$(grep -c MB told)" -eq 1 ]
else
	skipped "progress on a terminal: there is no script"
fi

# ---- page

spare='\000\000\001\243\001\377\126\000\377\377\377\000\142\377\377\377'
{ ff 512; printf "$spare"; } >page
expect 0 "path: 6, boot number 1, generation 2" page page
says "status: FF, good"
says "tag: 01, boot"
check "one erase is one" grep -qx "count: 1 erase" out
says "repairs: 0"
mend() { # NAME OFFSET BYTE: a page with one byte changed, which is put right
	cp page flawed
	poke flawed "$2" "$3"
	rm -f mended
	expect 0 "repairs: 1 ($1)" page --repaired mended flawed
	says "page written: mended"
	check "a repaired page is as it was written: $1" cmp page mended
}
mend "first half" 0 '\376'
mend "first half" 525 '\376'
mend "second half" 511 '\177'
mend "second half" 522 '\373'
mend "tag" 516 '\000'
mend "path word" 512 '\200'
mend "path word" 515 '\242'
mend "count word" 518 '\127'
mend "count word" 524 '\143'
cp page flawed
poke flawed 517 '\376'
poke flawed 515 '\203'
poke flawed 524 '\102'
poke flawed 522 '\374'
poke flawed 527 '\374'
expect 0 "repairs: 0" page flawed
check "bits that are ignored are no repair" grep -qx "repairs: 0" out
says "status: FE, good"
poke flawed 0 '\376'
poke flawed 256 '\376'
poke flawed 516 '\003'
expect 0 "repairs: 3 (tag, first half, second half)" page flawed
{ ff 512; printf '\000\000\001\243\030\377\126\000\377\377\377\000\142\377\377\377'; } >data_page
expect 0 "path: 6" page data_page
says "tag: 18, data"

# a count that can be read but not written
{ ff 512; printf '\000\000\001\243\001\377\126\377\377\377\377\377\376\377\377\377'; } >counted
expect 0 "count: 262143 erases" page counted
expect_none none 1 "repaired page: refused, 2: a number is outside its range" page --repaired none counted

refuse() { # WORDS DETAIL OFFSET BYTES: a page with bytes changed, which is refused
	cp page flawed
	poke flawed "$3" "$4"
	expect_none none 1 "$1" page --repaired none flawed
	says "$2"
}
refuse "page: refused, 3: the block is marked bad" "status byte 00: marked by the factory" 517 '\000'
refuse "page: refused, 3: the block is marked bad" "status byte FC: went bad in use (late)" 517 '\374'
refuse "page: refused, 4: the tag byte is not within one bit of a tag" "tag byte 55" 516 '\125'
refuse "page: refused, 52: the magic is not 56 hex, in a word that needed no repair" "magic 65 in spare byte 6" 518 '\145'
refuse "page: refused, 53: the magic is not 56 hex, in a word that was repaired" \
	"magic 65 after the repair, 64 in spare byte 6" 518 '\144'
refuse "page: refused, 6: a half of the page is not repairable" "the first half, bytes 0-255" 0 '\374'
refuse "page: refused, 6: a half of the page is not repairable" "the second half, bytes 256-511" 256 '\374'
# a page that is not ours: erased; another magic, written so; another magic in spite of a repair
ff 528 >erased_page
expect 1 "page: refused, 51: the spare is erased, all FF" page erased_page
says "  the page is erased, all FF"
cp erased_page flawed
poke flawed 511 '\376'
expect 1 "page: refused, 51: the spare is erased, all FF" page flawed
says "  but 1 data byte is not FF"
poke flawed 0 '\000\000'
expect_none none 1 "page: refused, 51" page --repaired none flawed
says "  but 3 data bytes are not FF"
not_ours() { # NUMBER MAGIC STORED OFFSET BYTE: an erased page with a byte changed
	cp erased_page flawed
	poke flawed $((512 + $4)) "$5"
	case $1 in
	52) refuse_words="52: the magic is not 56 hex, in a word that needed no repair" detail="magic $2 in spare byte 6" ;;
	53) refuse_words="53: the magic is not 56 hex, in a word that was repaired" \
		detail="magic $2 after the repair, $3 in spare byte 6" ;;
	esac
	expect 1 "page: refused, $refuse_words" page flawed
	check "the magic is told" grep -qx "  $detail" out
}
for place in 0 1 2 3 4 5 8 9 10 13 14 15; do
	not_ours 52 FF FF $place '\376'
done
not_ours 52 FF FF 12 '\337'
for byte in '\376' '\375' '\373' '\367' '\357' '\277' '\177'; do
	not_ours 53 FF FF 12 "$byte"
done
not_ours 53 FF FE 6 '\376'
not_ours 53 FF 7F 6 '\177'
not_ours 53 FF FF 7 '\376'
not_ours 53 FF FF 11 '\376'
ff 527 >short_page
expect 2 "short_page: ends at offset 527, expected 528 bytes, 512 of data and 16 of spare (refusal 1" page short_page
expect 2 "page: is the file that is read" page --repaired page --force page
expect 2 "missing: cannot be read" page missing

piped 0 "path: 6, boot number 1, generation 2" page page -

# ---- boot

word_of() { # DATA: the protected word, as octal escapes
	rest=$1
	number=3
	parity=0
	while [ $rest -gt 0 ]; do
		case $number in
		4 | 8 | 16) number=$((number + 1)) ;;
		esac
		[ $((rest & 1)) -eq 0 ] || parity=$((parity ^ number))
		rest=$((rest >> 1))
		number=$((number + 1))
	done
	word=$(($1 << 6 | 32 | parity))
	printf '\\%03o\\%03o\\%03o\\%03o' $((word >> 24)) $((word >> 16 & 255)) $((word >> 8 & 255)) $((word & 255))
}
spare_of() { # TAG PATH STATUS MAGIC: a spare as octal escapes; all but the path in octal, the last two 377 and 126
	printf '%s' "$(word_of "$2")\\$1\\${3:-377}\\${4:-126}\\000\\377\\377\\377\\000\\142\\377\\377\\377"
}
free='\377\377\377\377\377\377\126\000\377\377\377\000\142\377\377\377'
# The spares of blocks, alike on the first and last page: 3:1 is boot 3 of generation 1, - is free.
blocks_of() { # BLOCK..
	for block; do
		escapes=$free
		[ "$block" = - ] || escapes=$(spare_of 001 $((4 * ${block%:*} + ${block#*:})))
		printf "$escapes$escapes"
	done
}
dump_of() { # SPARES PAGES: a dump with these spares, of so many pages a block
	place=0
	while [ $place -lt $(($(wc -c <"$1") / 16)) ]; do
		ff 512
		dd if="$1" bs=16 skip=$place count=1 2>/dev/null
		[ $((place % 2)) -eq 1 ] || ff $((($2 - 2) * 528))
		place=$((place + 1))
	done
}
check "a spare is made as the page's is" [ "$(spare_of 001 6)" = "$spare" ]

blocks_of - 1:0 - 3:1 - 0:3 2:2 - >mixed
expect 0 "boot: 4 blocks mapped, 0 to erase" boot --spares mixed
says "dump: 8 blocks (by its size), of each the spares of its first and last page"
says "blocks: 4 boot, 4 passed over"
check "what is passed over is told" grep -qx "     4 free" out
sed -n '/^  boot  block/,$p' out >found
cat >expected <<-END
	  boot  block  generation  repairs
	     0      5           3  -
	     1      1           0  -
	     2      6           2  -
	     3      3           1  -
END
check "the map is in the order of boot numbers" cmp expected found
dump_of mixed 32 >mixed_dump
expect 0 "boot: 4 blocks mapped, 0 to erase" boot mixed_dump
says "dump: 8 blocks (by its size), 32 pages a block (assumed)"
says "     3      3           1  0x00000c000  -"
sed -n '/^  boot  block/,$s/  address    \|  0x0000[0-9a-f]*//p' out >found
check "a dump and its spares have one map" cmp expected found
dump_of mixed 16 >mixed_dump_16
expect 0 "dump: 8 blocks (by its size), 16 pages a block (told)" boot --pages-per-block 16 mixed_dump_16
says "     3      3           1  0x000006000  -"
dd if=mixed_dump bs=16896 count=7 of=first_blocks 2>/dev/null
expect 0 "boot: 4 blocks mapped, 0 to erase" boot first_blocks
says "dump: 7 blocks"
# a block of one page, which is its first and its last
{ ff $((1023 * 528)); ff 512; blocks_of 0:2 | dd bs=16 count=1 2>/dev/null; } >one_page
expect 0 "boot: 1 block mapped, 0 to erase" boot --pages-per-block 1 one_page
says "dump: 1024 blocks (by its size), 1 page a block (told)"
says "     0   1023           2  0x00007fe00  -"
check "what is passed over is told" grep -qx "  1023 erased" out

# read with the other number of pages a block it has no map
warning="mixed_dump_16: with 32 pages a block no boot number is mapped, but with 16 (8 blocks) 4 would be (--pages-per-block)"
expect_warned 0 "$warning" "boot: there is no boot block" boot mixed_dump_16
check "what is passed over is told" grep -qx "     4 first and last page differ" out
expect_warned 0 "with 16 pages a block no boot number is mapped, but with 32 (8 blocks) 4 would be" "16 blocks" \
	boot --pages-per-block 16 mixed_dump

# of two generations the older is kept if the newer is the next, in either order; no other pair is a pair
for pair in 0:1 1:2 2:3 3:0; do
	old=${pair%:*}
	new=${pair#*:}
	blocks_of 1:0 0:$old - 0:$new >pair_spares
	expect 0 "boot: 2 blocks mapped, 1 to erase" boot --spares pair_spares
	says "     0      1           $old  -"
	check "the newer is to be erased" grep -qx "erase: block 3" out
	says "  a newer copy of boot 0: generation $new, and block 1 holds generation $old"
	blocks_of 0:$new 0:$old 1:0 >pair_spares
	expect 0 "boot: 2 blocks mapped, 1 to erase" boot --spares pair_spares
	says "     0      1           $old  -"
	check "the newer is to be erased" grep -qx "erase: block 0" out
done
for pair in 0:0 1:1 2:2 3:3 0:2 2:0 1:3 3:1; do
	blocks_of 0:${pair%:*} 1:0 0:${pair#*:} >pair_spares
	expect 1 "boot: refused, 13: a boot number is missing" boot --spares pair_spares
	says "  boot 0 is in 2 blocks, of which neither is the next generation of the other"
	says "    block 0: generation ${pair%:*}"
	says "    block 2: generation ${pair#*:}"
	says "  higher numbers may be wrong too; --all tells what every block holds"
	says_not "mapped"
done
blocks_of 2:3 1:1 2:0 - 0:0 1:2 >pairs
dump_of pairs 32 >pairs_dump
expect 0 "boot: 3 blocks mapped, 2 to erase" boot pairs_dump
sed -n '/^erase/,$p' out >found
cat >expected <<-END
	erase: block 5, address 0x000014000
	  a newer copy of boot 1: generation 2, and block 1 holds generation 1
	erase: block 2, address 0x000008000
	  a newer copy of boot 2: generation 0, and block 0 holds generation 3
END
check "blocks to erase are in the order of boot numbers" cmp expected found

# three and more, even if two of them would be a pair
for blocks in "0:0 0:1 0:2" "0:1 0:0 0:1" "0:3 0:0 0:3 0:0"; do
	blocks_of $blocks >three
	expect 1 "boot: refused, 13" boot --spares three
	says "  boot 0 is in $(echo $blocks | wc -w) blocks; expected one, or two of which one is the newer"
	check "each of them is told" [ "$(grep -c '^    block [0-3]: generation [0-3]$' out)" -eq "$(echo $blocks | wc -w)" ]
done
# a number that is missing
blocks_of - 1:0 >missing_zero
expect 1 "boot: refused, 13" boot --spares missing_zero
says "  boot 0 is missing; the highest found is boot 1, in block 1"
blocks_of 0:0 5:3 2:0 1:0 5:2 >missing_more
expect 1 "boot: refused, 13" boot --spares missing_more
says "  boot 3 is missing; the highest found is boot 5, in block 1"
blocks_of 0:0 16777215:3 >missing_most
expect 1 "  boot 1 is missing; the highest found is boot 16777215, in block 1" boot --spares --all missing_most
says "  block 1: boot 16777215, generation 3"
check "every block is told already" grep -qx "  higher numbers may be wrong too" out
# the smallest number that is wrong is told, whatever is wrong with it
blocks_of 0:0 1:0 1:1 2:0 2:0 4:0 4:0 4:0 >several_wrong
expect 1 "  boot 2 is in 2 blocks" boot --spares several_wrong
blocks_of 0:0 1:0 3:0 3:0 4:0 4:0 4:0 >several_wrong
expect 1 "  boot 2 is missing; the highest found is boot 4, in block 4" boot --spares several_wrong
blocks_of 0:0 1:0 1:0 1:0 3:0 3:0 5:0 >several_wrong
expect 1 "  boot 1 is in 3 blocks" boot --spares several_wrong

# repaired spares count as what they were
flaws() { # BYTE..: the first block has a wrong bit in each of these bytes of its two spares; 15 and 31 do not count
	blocks_of 0:1 1:0 >flawed
	for at; do
		case $((at % 16)) in
		4 | 15) poke flawed $at '\000' ;;
		6) poke flawed $at '\127' ;;
		*) poke flawed $at '\001' ;;
		esac
	done
	expect 0 "boot: 2 blocks mapped, 0 to erase" boot --spares flawed
}
flaws 0
says "     0      0           1  first page 1"
flaws 16 22
says "     0      0           1  last page 2"
flaws 4 6 1 18 20
says "     0      0           1  first page 3, last page 2"
says "     1      1           0  -"
flaws 15 31
says "     0      0           1  -"

# what is passed over: a block with such a spare on its first page, on its last, and on both
passed() { # KIND WORDS SPARE KIND: the kind of block with both, the spare in words, and the kind of block with one
	for at in 0 16; do
		blocks_of 1:0 0:0 >passed_over
		poke passed_over $at "$3"
		expect 0 "boot: 1 block mapped, 0 to erase" boot --spares --all passed_over
		says "blocks: 1 boot, 1 passed over"
		check "one page is passed over as: $4" grep -qx "     1 $4" out
	done
	says "  block 0: first page boot 1, generation 0,"
	says "    last page $2"
	poke passed_over 0 "$3"
	expect 0 "boot: 1 block mapped, 0 to erase" boot --spares --all passed_over
	check "both pages are passed over as: $1" grep -qx "     1 $1" out
	says "  block 0: $2"
	says "  block 1: boot 0, generation 0"
}
differ="first and last page differ"
erased='\377\377\377\377\377\377\377\377\377\377\377\377\377\377\377\377'
passed free free "$free" "$differ"
for tag in 147:log-copying 006:log 171:data-copying 030:data; do
	passed ${tag#*:} ${tag#*:} "$(spare_of ${tag%:*} 4)" "$differ"
done
passed boot-copying "boot-copying 1, generation 3" "$(spare_of 037 7)" "$differ"
passed "bad (factory)" "bad (factory)" "$(spare_of 001 4 002)" "bad (factory)"
passed "bad (late)" "bad (late)" "$(spare_of 001 4 374)" "bad (late)"
passed "unknown tag" "unknown tag 55" "$(spare_of 125 4)" "$differ"
passed erased erased "$erased" "$differ"
passed "not ours" "not ours" "$(spare_of 001 4 377 145)" "$differ"
passed "not ours" "not ours (repaired)" "$(spare_of 001 4 377 144)" "$differ"
# one page whose word needed no repair, and one whose word was repaired
blocks_of 1:0 0:0 >passed_over
poke passed_over 0 "$(spare_of 001 4 377 145)$(spare_of 001 4 377 144)"
expect 0 "boot: 1 block mapped, 0 to erase" boot --spares --all passed_over
check "neither page is ours" grep -qx "     1 not ours" out
says "  block 0: first page not ours,"
says "    last page not ours (repaired)"
# a boot block of which the pages have other numbers or generations; a status byte with one 0 is good
for path in 5 7 8 0; do
	blocks_of 1:0 0:0 >passed_over
	poke passed_over 16 "$(spare_of 001 $path)"
	expect 0 "boot: 1 block mapped, 0 to erase" boot --spares --all passed_over
	check "other paths are passed over" grep -qx "     1 $differ" out
	says "    last page boot $((path / 4)), generation $((path % 4))"
done
poke passed_over 16 "$(spare_of 001 4 376)"
expect 0 "boot: 2 blocks mapped, 0 to erase" boot --spares passed_over
# every block, in runs of those that hold the same
blocks_of - - 0:1 - - - - 0:2 >runs
poke runs 96 "$(spare_of 125 4)$(spare_of 126 4)"
expect 0 "boot: 1 block mapped, 1 to erase" boot --spares --all runs
sed -n '2,/^boot/p' out >found
cat >expected <<-END
	blocks: 2 boot, 6 passed over
	     5 free
	     1 unknown tag
	  blocks 0-1: free
	  block 2: boot 0, generation 1
	  block 3: first page unknown tag 55,
	    last page unknown tag 56
	  blocks 4-6: free
	  block 7: boot 0, generation 2
	boot: 1 block mapped, 1 to erase
END
check "every block is told" cmp expected found

# a number that is missing, but stands on a page that is passed over
blocks_of 0:0 1:2 2:0 >nearly
poke nearly 48 "$erased"
expect 1 "  boot 1 is missing; the highest found is boot 2, in block 2" boot --spares nearly
says "  block 1 is passed over: first page boot 1, generation 2,"
says "    last page erased"
poke nearly 32 "$(spare_of 037 5)$(spare_of 037 5)"
expect 1 "  block 1 is passed over: boot-copying 1, generation 1" boot --spares nearly
poke nearly 32 "$(spare_of 037 8)$(spare_of 001 12)"
expect 1 "  boot 1 is missing" boot --spares nearly
says_not "is passed over"

# none at all
blocks_of - - - >none_of_three
expect 0 "boot: there is no boot block: nothing is mapped, and nothing to erase" boot --spares none_of_three
says "blocks: 0 boot, 3 passed over"
ff $((1024 * 32)) >erased_spares
expect 0 "boot: there is no boot block" boot --spares erased_spares
says "dump: 1024 blocks"
ff 16896 >erased_block
expect 0 "boot: there is no boot block" boot erased_block
says "dump: 1 block (by its size), 32 pages a block (assumed)"

# files of the wrong size, and wrong arguments
expect 2 "empty: is empty; expected blocks of 16896 bytes, 32 pages of 528" boot empty
expect 2 "empty: is empty; expected blocks of 32 bytes, 2 spares of 16" boot --spares empty
ff 33791 >short_blocks
expect 2 "short_blocks: ends at offset 33791, inside block 1; expected whole blocks of 16896 bytes, 32 pages of 528 (" \
	boot short_blocks
check "the refusal is named" grep -qF -e "(refusal 1: a lent buffer has the wrong length)" err
ff $((3 * 8448)) >three_blocks
expect 2 "three_blocks: ends at offset 25344, inside block 1; expected whole blocks of 16896 bytes, 32 pages of 528; --pages" \
	boot three_blocks
check "the complaint tells what fits" grep -qF -e "; --pages-per-block 16 would fit (refusal 1: a lent buffer" err
expect 2 "inside block 6; expected whole blocks of 3696 bytes, 7 pages of 528; --pages-per-block 16 would fit (refusal 1" \
	boot --pages-per-block 7 three_blocks
expect 2 "inside block 0; expected whole blocks of 16896 bytes, 32 pages of 528; --spares would fit (refusal 1" boot mixed
ff 33 >short_spares
expect 2 "short_spares: ends at offset 33, inside block 1; expected whole blocks of 32 bytes, 2 spares of 16 (refusal 1" \
	boot --spares short_spares
ff $((1025 * 32)) >many_spares
expect 2 "many_spares: has 32800 bytes, 1025 blocks of 2 spares of 16; expected at most 1024 blocks (refusal 2: a number" \
	boot --spares many_spares
ff $((1056 * 528)) >many_blocks
expect 2 "1056 blocks of 1 page of 528; expected at most 1024 blocks; --pages-per-block 32 would fit (refusal 2" \
	boot --pages-per-block 1 many_blocks
expect 0 "dump: 33 blocks" boot many_blocks
expect 2 "--pages-per-block 16: expected it without --spares, as spares alone have no pages" \
	boot --spares --pages-per-block 16 mixed
for pages in 0 1025 -8; do
	expect 2 "boot: --pages-per-block $pages: out of range, expected a number from 1 to 1024" \
		boot --pages-per-block=$pages mixed_dump
done
for option in --all --spares --json "--pages-per-block 32"; do
	expect 2 "boot: ${option%% *}: is given twice; expected it once" boot $option $option mixed_dump
done
expect 2 "--pages: no such option; --pages-per-block has to be named in full" boot --pages 32 mixed_dump
expect 2 "--blocks: no such option" boot --blocks 8 mixed_dump
expect 2 "boot: no file; expected DUMP as the last argument" boot --spares
expect 2 "missing: cannot be read" boot missing
piped 0 "boot: 4 blocks mapped, 0 to erase" mixed_dump boot -
piped 0 "boot: 4 blocks mapped, 0 to erase" mixed boot --spares -
piped 1 "boot: refused, 13" missing_zero boot --spares -
piped 2 "standard input: ends at offset 256, inside block 0" mixed boot -

# ---- JSON

# A run with --json, and what Python says of the value d that it gives.
json() { # STATUS ARGUMENTS..
	status=$1
	shift
	"$ream" "$@" --json >out 2>err
	check "ream $* --json: exit status" [ $? -eq "$status" ]
	check "ream $* --json: valid" python3 -m json.tool out
	check "ream $* --json: nothing on standard error" [ ! -s err ]
}
has() { # EXPRESSION..: each holds
	check "expected in JSON: $*" python3 -c '
import json, sys
d = json.load(open("out"))
sys.exit(0 if all(eval(expression) for expression in sys.argv[1:]) else 1)' "$@"
}
if command -v python3 >/dev/null && python3 -c 'import json' 2>/dev/null; then
	json 0 pair $chip kinds
	has "d['command'] == 'pair'" "d['chip'] == {'blocks': 16, 'blocks_told': True, 'region_blocks': 4,
		'region_blocks_told': False, 'pages_per_block': 1, 'pages_per_block_told': True, 'table_pages': 1}" \
		"d['dump']['whole_chip'] is False" \
		"d['dump']['size'] == 8448" "d['dump']['status_told'] is False" "d['dump']['unreadable'] == []" \
		"d['settled'] is True" "d['refusal'] is None" "d['version'] == 5" "d['primary'] == 12" "d['mirror'] == 15" \
		"d['entries'] == {'good': 13, 'reserved': 1, 'late': 1, 'factory': 1}" \
		"d['not_good'][0] == {'first': 9, 'last': 9, 'entry': 'reserved'}" "len(d['not_good']) == 3" \
		"[b['holds'] for b in d['region']] == ['primary', 'erased', 'erased', 'mirror']" \
		"d['region'][0] == {'block': 12, 'holds': 'primary', 'version': 5, 'pages': 'P'}" "d['warnings'] == []"
	json 1 pair $chip --unreadable 13:0 newer
	has "d['settled'] is False" "d['refusal']['number'] == 10" "'not settled' in d['refusal']['text']" \
		"d['dump']['unreadable'] == [{'block': 13, 'page': 0}]" "d['recovery']['version'] == 6" \
		"d['recovery']['steps'] == [{'step': 0, 'does': 'erase', 'block': 15, 'address': 30720},
			{'step': 1, 'does': 'write', 'block': 15, 'page': 0, 'address': 30720}]"
	for command in "pair" "update --mark-late 0" "recover"; do
		json 0 $command --blocks 8196 --pages-per-block 2 --region-blocks 7 --unreadable 8189:0,8194:1 seven
		has "d['chip'] == {'blocks': 8196, 'blocks_told': True, 'region_blocks': 7, 'region_blocks_told': True,
			'pages_per_block': 2, 'pages_per_block_told': True, 'table_pages': 2}" \
			"d['dump']['unreadable'] == [{'block': 8189, 'page': 0}, {'block': 8194, 'page': 1}]" \
			"(d if d['command'] == 'pair' else d['after'])['primary'] == 8190" \
			"d['command'] != 'pair' or [b['block'] for b in d['region']] == list(range(8189, 8196))"
	done
	json 1 pair $chip no_copy
	has "d['refusal']['number'] == 7" "d['recovery']['refusal']['number'] == 7" "'steps' not in d['recovery']"
	json 1 pair $chip differing_more
	has "d['differing'][1] == {'first': 4, 'last': 7, 'primary': 'late', 'mirror': 'reserved', 'merged': 'factory'}"
	json 1 pair $two by_linux
	has "len(d['notes']) == 2" "'header on page 0 only, as Linux writes it above 8,192 blocks' in d['notes'][1]"
	json 0 pair $chip worn
	has "len(d['notes']) == 1" "d['notes'][0].startswith('2 entries are reserved (10) and none late (01)')"
	json 0 update $chip --mark-late 8-10 kinds
	has "d['command'] == 'update'" "d['marks'] == [{'block': 8, 'from': 'good', 'to': 'late'},
		{'block': 9, 'from': 'reserved', 'to': 'reserved'}, {'block': 10, 'from': 'late', 'to': 'late'}]" \
		"d['version'] == 6" "[s['does'] for s in d['steps']] == ['erase', 'write', 'erase', 'write']" \
		"d['written'] == []" "d['after'] == {'version': 6, 'primary': 12, 'mirror': 15}"
	json 1 update $chip --mark-late 8 newer
	has "d['refusal']['number'] == 10" "'steps' not in d"
	json 0 recover $chip --apply 'new "quoted\' --pages json_pages newer
	has "d['command'] == 'recover'" "d['steps'][1]['file'] == 'step-01-block-15-page-0.bin'" \
		"d['written'][0] == {'what': 'dump', 'path': 'new \"quoted\\\\'}" \
		"d['written'][1] == {'what': 'page', 'path': 'json_pages/step-01-block-15-page-0.bin'}"
	check "what is told in JSON is written" cmp recovered 'new "quoted\'
	json 1 recover $chip no_target
	has "d['refusal']['number'] == 11" "d['failed'] == []"
	json 0 $update
	has "d['failed'] == []"
	json 0 $update --failed 1,3
	has "d['failed'] == [{'step': 1, 'does': 'write', 'block': 12, 'page': 0, 'target': 14},
			{'step': 3, 'does': 'erase', 'block': 15, 'target': 13}]" "d['refusal'] is None" "d['version'] == 6" \
		"d['steps'] == [{'step': 0, 'does': 'zero', 'block': 15, 'page': 0, 'address': 30720},
			{'step': 1, 'does': 'erase', 'block': 13, 'address': 26624},
			{'step': 2, 'does': 'write', 'block': 13, 'page': 0, 'address': 26624}]" \
		"d['marks'] == [{'block': 9, 'from': 'good', 'to': 'late'}]" \
		"d['after'] == {'version': 6, 'primary': 14, 'mirror': 13}"
	json 0 recover $chip --failed 0 --pages json_pages_anew newer
	has "d['steps'][0]['file'] == 'step-00-block-15-zero.bin'" "'file' not in d['steps'][1]" \
		"d['steps'][2]['file'] == 'step-02-block-14-page-0.bin'" "d['after']['mirror'] == 14" \
		"[w['path'] for w in d['written']] == ['json_pages_anew/' + d['steps'][i]['file'] for i in (0, 2)]"
	json 1 $update --failed 1,0,7
	has "d['failed'] == [{'step': 1, 'does': 'write', 'block': 12, 'page': 0, 'target': 14},
			{'step': 0, 'does': 'zero', 'block': 12, 'page': 0}]" "d['refusal'] == {'number': 12,
			'text': 'a step that writes zeros failed'}" "'steps' not in d" "'after' not in d"
	json 1 $update --failed 3,2,1
	has "d['refusal']['number'] == 11" "d['failed'][2] == {'step': 1, 'does': 'erase', 'block': 13}"
	json 1 $update --failed 9
	has "d['refusal']['number'] == 2" "d['failed'] == [{'step': 9}]"
	json 0 pair $chip --unreadable 13:0 retired
	has "[b['holds'] for b in d['region']] == ['primary', 'retired', 'bad', 'mirror']" \
		"[b['pages'] for b in d['region']] == ['P', 'R', 'B', 'M']" \
		"d['dump']['unreadable'] == [{'block': 13, 'page': 0}]"
	json 0 pair --blocks 8196 --pages-per-block 2 retired_two
	has "[b['holds'] for b in d['region']] == ['primary', 'other', 'retired', 'mirror']" \
		"[b['pages'] for b in d['region']] == ['PP', '-?', 'RP', 'MM']"
	odd=$(printf 'odd\377\n\303\251')
	cp settled "$odd"
	json 0 pair $chip "$odd"
	has "d['dump']['name'] == 'odd\ufffd\n\u00e9'"
	new_chip 16 2 3 14
	json 0 init --pages-per-block 2 new
	has "d['command'] == 'init'" "d['chip']['blocks'] == 16" "d['dump']['whole_chip'] is True" "d['warnings'] == []" \
		"d['notes'] == []" "[b['holds'] for b in d['region']] == ['erased', 'erased', 'bad', 'erased']" \
		"d['found'] == 'no table'" "d['refusal'] is None" "d['bitmap_told'] is False" "d['block_told'] is False" \
		"d['version_told'] is False" "d['entries'] == {'good': 14, 'reserved': 0, 'late': 0, 'factory': 2}" \
		"[run['first'] for run in d['not_good']] == [3, 14]" "d['version'] == 1" \
		"d['steps'] == [{'step': 0, 'does': 'erase', 'block': 15, 'address': 61440},
			{'step': 1, 'does': 'write', 'block': 15, 'page': 0, 'address': 61440},
			{'step': 2, 'does': 'erase', 'block': 13, 'address': 53248},
			{'step': 3, 'does': 'write', 'block': 13, 'page': 0, 'address': 53248}]" \
		"d['done'] == 4" "d['written'] == []" "d['after'] == {'version': 1, 'primary': 15, 'mirror': 13}"
	json 0 init --pages-per-block 2 --bitmap bitmap --version 7 --block 12 --apply json_first --pages json_first_pages new
	has "d['bitmap_told'] is True" "d['block_told'] is True" "d['version_told'] is True" "d['version'] == 7" \
		"d['entries']['good'] == 16" "d['steps'][3]['file'] == 'step-03-block-15-page-0.bin'" \
		"[w['what'] for w in d['written']] == ['dump', 'page', 'page']" \
		"d['after'] == {'version': 7, 'primary': 12, 'mirror': 15}"
	json 0 pair --pages-per-block 2 json_first
	has "d['version'] == 7" "d['primary'] == 12" "d['mirror'] == 15" "d['entries']['good'] == 16"
	for steps in 1 2; do
		json 0 init --pages-per-block 2 --steps $steps --apply json_cut --force new
		has "d['done'] == $steps" "len(d['steps']) == 4" "'after' not in d" "d['entries']['factory'] == 2"
	done
	json 1 init --pages-per-block 2 json_cut
	has "d['found'] == 'not settled'" "d['refusal'] is None" "'steps' not in d" "'entries' not in d" \
		"d['region'][3] == {'block': 15, 'holds': 'primary', 'version': 1, 'pages': 'P'}"
	json 1 init $chip settled
	has "d['found'] == 'settled'" "d['refusal'] is None" "'steps' not in d"
	json 1 init $chip several
	has "d['found'] == 'not settled'" "d['refusal']['number'] == 8"
	new_chip 16 2 12 13 14
	json 1 init --pages-per-block 2 new
	has "d['found'] == 'no table'" "d['refusal']['number'] == 11" "'steps' not in d"
	new_chip 16 2 12 13 14 15
	json 1 init --pages-per-block 2 new
	has "d['found'] == 'no table'" "d['refusal']['number'] == 7" "'steps' not in d"
	new_chip 16 2 3 7:1 9 9:1 10 10:1
	json 0 first --pages-per-block 2 --bitmap-out json_bitmap new
	has "d['command'] == 'first'" "d['marks_alone'] is False" "d['chip'] == {'blocks': 16, 'blocks_told': False,
		'region_blocks': 4, 'region_blocks_told': False, 'pages_per_block': 2, 'pages_per_block_told': True,
		'table_pages': 1}" "d['dump']['name'] == 'new'" "d['dump']['size'] == 67584" "d['dump']['whole_chip'] is True" \
		"d['warnings'] == []" "d['notes'] == []" "d['refusal'] is None" "d['good'] == 12" "d['bad'] == 4" \
		"d['marked'] == [{'first': 3, 'last': 3, 'page': 'first'}, {'first': 7, 'last': 7, 'page': 'second'},
			{'first': 9, 'last': 10, 'page': 'both'}]" "d['written'] == [{'what': 'bitmap', 'path': 'json_bitmap'}]"
	bitmap_of 16 3 7 9 10 >expected
	check "what is told in JSON is written" cmp expected json_bitmap
	marks_of 16 3 7:1 9 9:1 10 10:1 >marks
	cp out by_dump.json
	json 0 first --marks --region-blocks 5 marks
	has "d['marks_alone'] is True" "d['chip'] == {'blocks': 16, 'blocks_told': False, 'region_blocks': 5,
		'region_blocks_told': True}" "d['dump'] == {'name': 'marks', 'size': 32}" "d['written'] == []" \
		"all(d[key] == json.load(open('by_dump.json'))[key] for key in ('good', 'bad', 'marked', 'refusal', 'notes'))"
	marks_of 8 >marks
	json 0 first --marks --blocks 8 marks
	has "d['chip']['blocks_told'] is True" "d['good'] == 8" "d['bad'] == 0" "d['marked'] == []"
	make_dump 16 2 1 2 >used
	json 0 first --pages-per-block 2 used
	has "len(d['notes']) == 1" "d['notes'][0].startswith('there is a table already (ream pair), so the chip is not new.')"
	"$ream" first --json below >out 2>err
	check "a warning is on the standard error" grep -q "^ream: warning: below: block 11, .* would have it found$" err
	has "d['warnings'][0].endswith('; --region-blocks 6 would have it found')" "d['bad'] == 0"
	"$ream" first --marks --json new >out 2>err
	check "nothing but JSON is on the standard output" [ ! -s out ]
	json 0 page page
	has "d['command'] == 'page'" "d['status'] == 255" "d['tag'] == 1" "d['tag_name'] == 'boot'" "d['path'] == 6" \
		"d['boot_number'] == 1" "d['generation'] == 2" "d['count'] == 1" "d['repairs'] == 0" "d['repaired'] == []"
	cp page flawed
	poke flawed 0 '\376'
	poke flawed 516 '\003'
	rm -f mended
	json 0 page --repaired mended flawed
	has "d['repairs'] == 2" "d['repaired'] == ['tag', 'first half']" "d['written'][0]['path'] == 'mended'"
	json 0 page data_page
	has "'boot_number' not in d"
	json 1 page --repaired none counted
	has "d['refusal']['number'] == 2" "d['count'] == 262143"
	json 1 page erased_page
	has "d['refusal'] == {'number': 51, 'text': 'the spare is erased, all FF'}" "d['detail'] == 'the page is erased, all FF'"
	cp erased_page flawed
	poke flawed 519 '\376'
	json 1 page flawed
	has "d['refusal']['number'] == 53" "d['detail'] == 'magic FF after the repair, FF in spare byte 6'"
	poke flawed 519 '\377'
	poke flawed 516 '\376'
	json 1 page flawed
	has "d['refusal']['number'] == 52" "d['detail'] == 'magic FF in spare byte 6'"
	json 0 boot pairs_dump
	has "d['command'] == 'boot'" "d['dump'] == {'name': 'pairs_dump', 'size': 101376, 'blocks': 6, 'spares_alone': False,
		'pages_per_block': 32, 'pages_per_block_told': False}" "d['warnings'] == []" "d['refusal'] is None" \
		"[(b['block'], b['boot_number'], b['generation'], b['path']) for b in d['boot_blocks']] == [
			(0, 2, 3, 11), (1, 1, 1, 5), (2, 2, 0, 8), (4, 0, 0, 0), (5, 1, 2, 6)]" \
		"[b['address'] for b in d['boot_blocks']] == [0, 16384, 32768, 65536, 81920]" \
		"d['passed_over'] == [{'why': 'free', 'blocks': 1}]" "d['mapped'] == [4, 1, 0]" "d['erase'] == [5, 2]" \
		"d['blocks'][3] == {'first': 3, 'last': 3, 'counts': False, 'first_page': 'free', 'last_page': 'free'}" \
		"len(d['blocks']) == 6"
	json 0 boot --spares runs
	has "d['dump'] == {'name': 'runs', 'size': 256, 'blocks': 8, 'spares_alone': True}" \
		"'address' not in d['boot_blocks'][0]" "[(b['first'], b['last'], b['counts']) for b in d['blocks']] == [
			(0, 1, False), (2, 2, True), (3, 3, False), (4, 6, False), (7, 7, True)]" \
		"d['blocks'][2]['first_page'] == 'unknown tag 55'" "d['blocks'][2]['last_page'] == 'unknown tag 56'" \
		"d['passed_over'] == [{'why': 'free', 'blocks': 5}, {'why': 'unknown tag', 'blocks': 1}]"
	flaws 4 6 1 18 20
	json 0 boot --spares flawed
	has "[(b['repairs_first'], b['repairs_last']) for b in d['boot_blocks']] == [(3, 2), (0, 0)]"
	json 1 boot --spares missing_more
	has "d['refusal']['number'] == 13" "d['boot_number'] == 3" "d['held_by'] == []" "'mapped' not in d" "'erase' not in d" \
		"max(b['boot_number'] for b in d['boot_blocks']) == 5"
	json 1 boot --spares three
	has "d['boot_number'] == 0" "d['held_by'] == [0, 1, 2, 3]" "[b['generation'] for b in d['boot_blocks']] == [3, 0, 3, 0]"
	json 1 boot --spares missing_most
	has "d['boot_number'] == 1" "d['boot_blocks'][1]['boot_number'] == 16777215"
	json 0 boot --spares none_of_three
	has "d['mapped'] == []" "d['erase'] == []" "d['boot_blocks'] == []" "d['refusal'] is None"
	"$ream" boot --json mixed_dump_16 >out 2>err
	check "a warning is on the standard error" grep -q "^ream: warning: mixed_dump_16: with 32 pages a block" err
	has "d['warnings'][0].endswith('but with 16 (8 blocks) 4 would be (--pages-per-block)')" "d['mapped'] == []"
	# wrong arguments and warnings stay on the standard error
	"$ream" pair $chip --json missing >out 2>err
	check "nothing but JSON is on the standard output" [ ! -s out ]
	"$ream" pair --blocks 8 --json last_four >out 2>err
	check "a warning is on the standard error" grep -q "^ream: warning: last_four: block 6" err
	has "d['warnings'][0].startswith('last_four: block 6, page 0, at offset 271086, has F7 in byte 750')"
	"$ream" pair --json below >out 2>err
	check "a warning is on the standard error" grep -q "^ream: warning: below: block 11, .* would have it found$" err
	has "d['warnings'][0].endswith('; --region-blocks 6 would have it found')" "d['chip']['region_blocks'] == 4" \
		"d['chip']['region_blocks_told'] is False" "[b['block'] for b in d['region']] == [12, 13, 14, 15]"
else
	skipped "JSON: there is no python3"
fi

# ---- simulate

expect 0 "judged after every event: no rule broken" simulate
cp out first
expect 0 "no rule broken" simulate --blocks 1024 --region-blocks 4 --seed 1 --events 20
check "a seed gives the same history again" cmp first out
expect 0 "no rule broken" simulate --seed 2
check "another seed gives another history" test -n "$(cmp first out 2>&1)"
expect 0 "=> OLD table kept, v232: the update's new primary was not complete" simulate --seed 645 --events 13
says "=> NEW table kept, v233: the update's new primary was complete"
says "!CUT, step 1: page 0"
says_not "failed"
# what make run shows
shown=$(sed -n 's/^.*ream simulate \(.*\) --svg .*/\1/p' "$root/Makefile")
check "make run simulates" [ -n "$shown" ]
expect 0 "=> OLD table kept, v221: the update's new primary was not complete" simulate $shown
says "  2#FAIL step 0: erase      bad         erased     *unreadable  mirror 220  -"
says "     => planned anew, 5 steps: 1022 will be retired, its copy goes to 1021"
says "  3 step 0: zero            bad         erased     *retired     mirror 220  -"
says "  7!CUT, step 4: page 0     bad         primary 221 retired    *erased      -"
says "=> NEW table kept, v221: the update's new primary was complete"
says "16 events: 2 updates planned, 2 power cuts, 2 recoveries planned"
says "1 step failed: 1 planned anew, 0 dropped"

# The old table has the version before the last update's, the new one its own.
kept_as_told() {
	awk '/ update: / { sub(/^v/, "", $NF); new = ($NF + 1) % 256 }
		/=> OLD table/ { sub(/.*kept, v/, ""); if (($0 + 1) % 256 != new) exit 1 }
		/=> NEW table/ { sub(/.*kept, v/, ""); if ($0 + 0 != new) exit 1 }' out
}
for blocks in 8 8192 8196 16388 24580 32768; do
	expect 0 "no rule broken" simulate --blocks $blocks --events 60 --seed $blocks --svg "picture_$blocks"
	check "the table kept has its version" kept_as_told
	says "picture written: picture_$blocks"
	check "the picture is whole" grep -q "^</svg>" "picture_$blocks"
	check "a cut is drawn" grep -q 'class="cut">CUT' "picture_$blocks"
done
# a region of more blocks: a column for each, in the text and in the picture
history() { # of the last run: its rows
	grep '^ *[0-9][0-9]*[!# ]' out | grep -v ' events*: \| steps* failed: '
}
rows() { # of the last run's history, how many
	history | grep -c .
}
cells() { # PICTURE: its cells, without those of the legend
	echo $(($(grep -c 'class="page ' "$1") - 7))
}
right_of_blocks() { # PICTURE
	awk -F '"' '/class="page / && $2 + $6 > right { right = $2 + $6 } />table read</ { table = $2 }
		END { exit !(right > 0 && right < table) }' "$1"
}
for shape in "16 5" "8192 6" "8196 7" "16388 5" "24580 6" "32768 7"; do
	blocks=${shape% *}
	size=${shape#* }
	expect 0 "no rule broken" simulate --blocks $blocks --region-blocks $size --events 60 --seed $blocks \
		--svg "picture_${blocks}_$size"
	says "The last $(word $size) blocks, event by event"
	says "P7 is a primary and M7 a mirror, of version 7"
	check "the table kept has its version" kept_as_told
	seq $((blocks - size)) $((blocks - 1)) >expected
	sed -n 's/^ *event \(.*\) read$/\1/p' out | tr -s ' ' '\n' | grep . >heads
	check "the text has a column for each block" cmp expected heads
	sed -n 's|.*class="head middle">block \([0-9]*\)</text>|\1|p' "picture_${blocks}_$size" | sort -nu >heads
	check "the picture has a column for each block" cmp expected heads
	check "the picture has every page of the region in every row" \
		[ "$(cells "picture_${blocks}_$size")" -eq $(($(rows) * size * ((blocks + 8191) / 8192))) ]
	check "the picture has the table right of the last block" right_of_blocks "picture_${blocks}_$size"
	check "the picture tells the size" grep -q "in two of the chip's last $(word $size) blocks" "picture_${blocks}_$size"
	check "the picture is whole" grep -q "^</svg>" "picture_${blocks}_$size"
done
expect 0 "no rule broken" simulate --region-blocks 6 --seed 28 --events 3 --stop
says "  2 step 0: erase           M182   *-       -       x       x       x       -"
says "  3!CUT, step 1: page 0     M182   *P183    -       x       x       x       -"
expect 0 "no rule broken" simulate --blocks 32768 --region-blocks 7 --seed 4 --events 9 --stop
says "  7 step 5: erase                *----  ????  ????  B???  PMM?  B???  P49   -"
says "  8 step 6: page 0               *M---  ????  ????  B???  PMM?  B???  P49   -"
expect 0 "no rule broken" simulate --blocks 32768 --region-blocks 7 --events 3000 --seed 18446744073709551615
expect 0 "No good block is left to mark" simulate --blocks 16 --region-blocks 7 --events 2000
expect 0 "picture written: picture_shown" simulate $shown --svg picture_shown
check "the picture in docs is what make run draws" cmp "$root/docs/power-cuts.svg" picture_shown
# the heads stand again every 40 rows; the bolt of a cut ends left of a number of four digits, 7 wide each
expect 0 "no rule broken" simulate --events 85 --stop --svg picture_long
check "the heads of the columns stand three times" [ "$(grep -c 'event, from top to bottom' picture_long)" -eq 3 ]
expect 0 "no rule broken" simulate --events 39 --stop --svg picture_short
check "the heads of the columns stand once" [ "$(grep -c 'event, from top to bottom' picture_short)" -eq 1 ]
clear_of_numbers() {
	awk -F '"' '/<path transform/ { split($2, at, /[( ]/); bolt = at[2] }
		/class="number">[0-9]/ { number = $2 } END { exit !(bolt > 0 && bolt + 14 <= number - 4 * 7) }' picture_long
}
check "the bolt is clear of the numbers" clear_of_numbers
check "the legend is right within a plan too" \
	grep -qF -e "otherwise: the plan goes on, or after a cut a recovery is planned" picture_long
expect 0 "No good block is left to mark" simulate --blocks 8 --events 2000
expect 2 "picture_8: is there already" simulate --svg picture_8
expect_none none 2 "expected at most 1000 events for a picture" simulate --events 1001 --svg none
expect_none none 2 "--events 0: out of range, expected a number from 1 to 100000" simulate --events 0 --svg none
expect_none none 2 "--blocks 9: out of range, expected a multiple of 4" simulate --blocks 9 --dump none
expect_none none 2 "--pages-per-block 1: expected at least 4" \
	simulate --blocks 32768 --pages-per-block 1 --dump none
expect_none none 2 "one argument too many" simulate --svg none extra

# failed steps: what comes of them, and the blocks that are retired
told_right() { # of the last run: each plan after a failed step starts with a zero step on its block, or it is dropped
	awk '/^ *[0-9]+#/ { failed = 1; zeroes = / step 0: zero / }
		/=> planned anew, [0-9]+ steps: [0-9]+ will be retired, its copy goes to [0-9]+$/ {
			if (!failed || zeroes) exit 1; failed = 0; planned = 1; next }
		/=> plan dropped, refusal 1[12]: / {
			if (!failed || zeroes != /refusal 12: a step that writes zeros failed/) exit 1; failed = 0; next }
		/^ *[0-9]+[ !#]/ && planned { if ($0 !~ /step 0: zero/ && $0 !~ /CUT before step 0/) exit 1; planned = 0 }
		END { exit failed }' out
}
stays_retired() { # SIZE: of the last run, in letters: a block that is retired stays so
	history | awk -v size="$1" '{ for (i = 0; i < size; i++) {
			held = $(NF - size + i); sub(/^[*]/, "", held)
			if (before[i] ~ /^R/ && held !~ /^R/) exit 1
			before[i] = held } }'
}
expect 0 "judged after every event: no rule broken" simulate --failures --seed 2 --events 25
says "cut, # a failed step. The table is read where the pair is settled."
says "  9#FAIL step 1: page 0     mirror 66   unreadable  bad        *erased      -"
says " 10 step 0: zero            mirror 66   unreadable  bad        *retired     -"
says "     => plan dropped, refusal 11: there is no block to write a copy to"
says "2 steps failed: 1 planned anew, 1 dropped"
expect 0 "no rule broken" simulate --seed 2 --events 25
says_not "failed"
for shape in "1024 4" "8 4" "16 5" "8192 6" "8196 7" "16388 5" "24580 6" "32768 7"; do
	blocks=${shape% *}
	size=${shape#* }
	for seed in 1 2 3; do
		expect 0 "no rule broken" simulate --failures --blocks $blocks --region-blocks $size --seed $seed \
			--events 150 --svg picture_failed --force
		check "the table kept has its version" kept_as_told
		check "what comes of failed steps is told" told_right
		[ $size -eq 4 ] || check "a retired block stays retired" stays_retired $size
		failed=$(grep -c '^ *[0-9]*#' out)
		cuts=$(grep -c '^ *[0-9]*!' out)
		anew=$(grep -c '=> planned anew' out)
		check "the failed steps are counted" \
			grep -q "^$failed steps* failed: $anew planned anew, $((failed - anew)) dropped" out
		check "each failed step is drawn" [ "$(grep -c 'class="failed">FAILED step' picture_failed)" -eq "$failed" ]
		check "each failed step has a cross, as the legend" \
			[ "$(grep -c 'M12 5 L2 15' picture_failed)" -eq $((1 + failed)) ]
		check "each cut has a bolt, as the legend" [ "$(grep -c 'L13 8 L8 8 Z' picture_failed)" -eq $((1 + cuts)) ]
		check "the picture has every page of the region in every row" \
			[ "$(cells picture_failed)" -eq $(($(rows) * size * ((blocks + 8191) / 8192))) ]
		check "the picture's title tells of failed steps" \
			grep -q "<title>A bad-block table through power cuts and failed steps</title>" picture_failed
	done
done
check "without failed steps no title tells of them" [ -z "$(grep 'failed steps' picture_8)" ]
check "retired blocks are drawn" grep -q 'class="page retired"' picture_failed
# a zero step that is cut or fails leaves its page as it was, retired or unreadable; where a failed write has left its
# page complete all the same, the first keeps the new table
expect 0 "no rule broken" simulate --failures --seed 19 --events 12
says "  8#FAIL step 1: page 0     other      *primary 60  bad         mirror 59   -"
says "  9!CUT, step 0: zero       other      *primary 60  bad         mirror 59   -"
says "     => NEW table kept, v60: the update's new primary was complete"
expect 0 "no rule broken" simulate --failures --seed 64 --events 4
says "  2#FAIL step 0: erase      other       other      *primary 128 mirror 128  v128"
says "  3!CUT, step 0: zero       other       other      *retired     mirror 128  -"
says "     => OLD table kept, v128: the update's new primary was not complete"
expect 0 "  3#FAIL step 0: zero      *unreadable  mirror 0    retired     erased      -" simulate --failures --seed 97 --events 14
says "     => plan dropped, refusal 12: a step that writes zeros failed"
says "  4 recovery to v0          unreadable  mirror 0    retired     erased      -"
expect 0 "no rule broken" simulate --failures --blocks 32768 --events 100000 --seed 3
check "the longest words fit" [ -n "$(grep '=> planned anew, 11 steps: 327' out)" ]
expect 2 "--failures: takes no value" simulate --failures=1
expect 2 "--failures: is given twice" simulate --failures --failures

expect 0 "3 events: 1 update planned, 1 power cut, 0 recoveries planned" simulate --seed 6 --events 3 --stop
expect 0 "1 event: 1 update planned, 0 power cuts, 0 recoveries planned" simulate --events 1 --stop
expect 0 "1 recovery planned" simulate --seed 6 --events 3
expect 0 "no rule broken" simulate --blocks 32768 --events 3000 --seed 18446744073709551615
expect 2 "--seed -8: out of range, expected a number from 0 to 18446744073709551615" simulate --seed -8
# What a history leaves where it stops can be recovered, and then updated: on regions of four blocks, and of more; with
# failed steps, and without.
for seed in 1 2 3 4 5 6 7 8 9 10 11 12 13 14 15 16 17 18 19 20 21 22 23 24; do
	blocks=$((seed % 4 * 8192 + 8192))
	shape="--blocks $blocks --pages-per-block 5"
	[ $seed -le 12 ] || shape="--blocks $((blocks - 4)) --pages-per-block 5 --region-blocks $((5 + seed % 3))"
	failing=$([ $((seed % 3)) -eq 0 ] || echo --failures)
	expect 0 "no rule broken" simulate $shape $failing --seed $seed --events $((seed + 2)) --stop --force \
		--dump cut --status-out cut_status
	expect 0 "pair: settled" recover $shape --status cut_status --apply mended --status-out mended_status \
		--force cut
	version=$(sed -n 's/^pair: settled, \(version [0-9]*\), .*/\1/p' out)
	expect 0 "pair: settled, $version," pair $shape --status mended_status mended
	expect 0 "recover: nothing to do" recover $shape --status mended_status mended
	expect 0 "pair: settled" update $shape --status mended_status --mark-late 0-7 --apply marked \
		--status-out marked_status --force mended
	tail -n 1 out >told
	expect 0 "pair: settled" pair $shape --status marked_status marked
	check "a pair is as its plan says" grep -qxF -e "$(cat told)" out
done

# ---- help, and the manual

for command in pair first init update recover page boot simulate; do
	expect 0 "usage: ream $command" $command --help
	expect 0 "usage: ream $command" $command --help --nonsense
	expect 0 "usage: ream $command" $command -h
	expect 0 "usage: ream $command" help $command
	"$ream" $command --help | grep -o '^  --[a-z-]*' | sort -u >told
	while read -r option; do
		check "the manual tells of $option of $command" grep -qF -e "$(echo "$option" | sed 's/-/\\-/g')" "$manual"
	done <told
done
expect 0 "usage: ream COMMAND" --help
says "  first     makes a new chip's first bitmap by the marks of the factory"
expect 0 "usage: ream COMMAND" -h
expect 0 "usage: ream COMMAND" help
expect 2 "pear: no such command" help pear
version=$(sed -n 's/^#define REAM_LIBRARY_VERSION "\(.*\)"/\1/p' "$root/include/reamsickle.h")
expect 0 "ream $version (Reamsickle)" --version
check "the manual is of the header's version" grep -q "^\.TH REAM 1 [0-9-]* \"ream $version\" " "$manual"

check "no temporary file is left" test -z "$(find . -name '*.??????')"

# The examples of the manual, as printed.
sed -n '/^\.EX/,/^\.EE/p' "$manual" | sed -n "s/\\\\-/-/g; s/\\\\(aq/'/g; s/\\\\e/\\\\/g; s/^\\$ //p" >examples
check "the manual has examples" [ -s examples ]
mkdir manual
while read -r line; do
	(
		cd manual || exit 2
		ream() { "$ream" "$@"; }
		eval "$line"
	) >out 2>err
	check "an example of the manual: $line" [ $? -le 1 ]
	check "an example of the manual, which says what is wrong: $line" [ ! -s err ]
done <examples

# The plan that the manual prints, and its commands for a chip as far as the parsers of mtd-utils go: on no device.
plain() { sed "s/\\\\-/-/g; s/\\\\(aq/'/g; s/\\\\e\$/\\\\/"; }
{ ff $((2 * 64 * 2112)); primary 005; ff $((63 * 2112)); mirror 005; ff $((63 * 2112)); } >region.bin
sed -n '/^update: 4 steps/,/^\.EE/p' "$manual" | sed '/^\.EE/d' | plain >printed
expect 0 "update: 4 steps" update --blocks 1024 --mark-late 17 --pages steps region.bin
sed -n '/^update: 4 steps/,/^ *3 /p' out >found
check "the manual prints the plan as it is" cmp printed found
sed -n '/^failed: step 2/,/^\.EE/p' "$manual" | sed '/^\.EE/d' | plain >printed
expect 0 "update: 3 steps" update --blocks 1024 --mark-late 17 --failed 2 --pages anew_steps region.bin
sed -n '/^failed: /,/^  a zero/p' out >found
check "the manual prints the plan after a failed step as it is" cmp printed found
sed -n '/^bad: 2 of 1024/,/^\.EE/p' "$manual" | sed '/^\.EE/d' | plain >printed
marks_of 1024 17 1022 1022:1 >marks
expect 0 "bitmap written: bitmap.bin" first --marks --bitmap-out bitmap.bin marks
sed -n '/^bad: /,$p' out >found
check "the manual prints the marks of a new chip as they are" cmp printed found
sed -n '/^init: 4 steps/,/^\.EE/p' "$manual" | sed '/^\.EE/d' | plain >printed
new_chip 4 64 2
expect 0 "init: 4 steps" init --blocks 1024 --bitmap bitmap.bin --pages first_steps new
sed -n '/^init: /,/^ *3 /p' out >found
check "the manual prints the plan of a first pair as it is" cmp printed found
for made in again both; do
	check "a first pair that was cut, and then made or recovered, is the manual's: $made" \
		cmp manual/first.bin manual/$made.bin
done
check "the manual's first pair by the marks is the one by their bitmap" cmp manual/first.bin manual/same.bin
bitmap_of 16 3 9 14 >right
check "the manual's first bitmap" cmp right manual/first.bitmap
sed -n '/^dump: 8 blocks/,/^\.EE/p' "$manual" | sed '/^\.EE/d' | plain >printed
marks_of 8 2:1 5 5:1 >marks
"$ream" first --marks --bitmap-out marks.bitmap marks >found
check "the manual prints the first bitmap of marks as it is" cmp printed found
check "the manual's marks are these" cmp marks manual/marks
sed -n '/^dump: 2 blocks/,/^\.EE/p' "$manual" | sed '/^\.EE/d' | plain >printed
blocks_of 0:0 0:1 | "$ream" boot --spares - >found
check "the manual prints the map of boot blocks as it is" cmp printed found
sed -n '/^\.EX/,/^\.EE/p' "$manual" | plain | awk '/^# (nanddump|flash_erase|nandwrite|mtdpart) / { on = 1 }
	on { print } !/\\$/ { on = 0 }' | sed 's|^# ||; s|/dev/mtd[0-9]|no_chip|' >chip_commands
check "the manual has the commands for a chip" [ "$(grep -c '^[a-z]' chip_commands)" -eq 18 ]
sed -n 's|^    \([a-z]*\)/\(step-.*\)|\1 \2|p' chip_commands >named
while read -r folder name; do
	[ "$folder" = steps ] || folder=${folder}_steps
	check "the manual names files as they are: $name" [ -s "$folder/$name" ]
done <named
check "the manual writes every page" [ "$(grep -c . named)" -eq 6 ]
if command -v nanddump >/dev/null && command -v flash_erase >/dev/null && command -v nandwrite >/dev/null &&
	command -v mtdpart >/dev/null; then
	sh ./chip_commands >out 2>&1
	check "mtd-utils take the commands' options" [ -z "$(grep -i 'usage\|unrecognized\|invalid\|parse\|--help' out)" ]
	check "mtd-utils come as far as the chip" [ "$(grep -c 'error!' out)" -ge 18 ]
else
	skipped "the manual's commands for a chip: there are no mtd-utils"
fi

if [ $failures -ne 0 ]; then
	echo "test_ream: $failures of $checks checks failed" >&2
	exit 1
fi
echo "test_ream: $checks checks passed"
