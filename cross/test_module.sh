#!/bin/sh
# The kept module is the one that the library's archive is made from, and its text is the same module.
#
#	cross/test_module.sh MODULE ARCHIVE FOLDER..
#
# MODULE is the folder of the kept module, ARCHIVE the library's archive, which was made without it, and each FOLDER has
# an archive of another target. The module, compiled again with the words that were kept, gives the archive's object to
# the byte, and so does its text. The text that each FOLDER's archive was made from differs in the lines of the target
# and of the functions' attributes alone.
set -eu

if [ $# -lt 3 ]; then
	echo "usage: cross/test_module.sh MODULE ARCHIVE FOLDER.." >&2
	exit 2
fi
module=$1
archive=$2
shift 2
work=$(mktemp -d)
trap 'rm -rf "$work"' EXIT

fail() {
	echo "test_module: $1" >&2
	exit 1
}

# Compiles a file in the place of module.bc, with the words that were kept.
compile() ( # FILE OBJECT
	file=$1
	object=$2
	clang=$module/clang
	set --
	while IFS= read -r word; do
		case $word in
		module.bc) word=$file ;;
		module.o) word=$object ;;
		esac
		set -- "$@" "$word"
	done < "$module/words"
	"$clang" "$@"
)

ar p "$archive" reamsickle_c.o > "$work/archived.o"
for file in module.bc module.ll; do
	compile "$module/$file" "$work/$file.o"
	cmp "$work/archived.o" "$work/$file.o" || fail "$file, compiled again, is not the object in $archive"
done
bytes=$(wc -c < "$work/archived.o")
echo "test_module: module.bc and module.ll, compiled again, are the object in $archive, $bytes bytes"

for folder in "$@"; do
	diff "$module/module.ll" "$folder/module.ll" | grep '^[<>]' > "$work/differ" ||
		fail "$folder/module.ll differs in no line"
	! grep -Ev '^[<>] (target (datalayout|triple)|attributes #[0-9]+) = ' "$work/differ" ||
		fail "$folder/module.ll differs in other lines"
	echo "test_module: $folder/module.ll has $(grep -c '^>' "$work/differ") other lines:"
	grep '^>' "$work/differ" | sed -e 's/^> /	/'
done
