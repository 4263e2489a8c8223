#!/bin/sh
# No entry of any archive takes more than 1,024 bytes of stack, but for the exception, which has a limit of its own.
#
#	cross/test_stack.sh ARCHIVE..
set -eu
root=$(cd "$(dirname "$0")/.." && pwd)
work=$(mktemp -d)
trap 'rm -rf "$work"' EXIT

# ream_boot_map keeps an array of 4 KiB.
exceptions='ream_boot_map=5120'

"$root/cross/stack" "$@" > "$work/table"
awk -F ' *[|] *' -v limit=1024 -v exceptions="$exceptions" '
	BEGIN {
		n = split(exceptions, pairs, " ")
		for (i = 1; i <= n; i++) {
			split(pairs[i], pair, "=")
			limits[pair[1]] = pair[2]
		}
	}
	NR == 1 {
		for (i = 3; i < NF; i++)
			column[i] = $i
	}
	NR > 2 {
		entry = $2
		gsub(/`/, "", entry)
		rows++
		for (i = 3; i < NF; i++) {
			most = entry in limits ? limits[entry] : limit
			if ($i !~ /^[0-9]+$/ || $i + 0 > most) {
				print "test_stack: " column[i] ": " entry " takes " $i " bytes, of " most " allowed"
				failures++
			} else if ($i + 0 > limit) {
				needed[entry] = 1
			}
		}
	}
	END {
		for (entry in limits)
			if (!(entry in needed)) {
				print "test_stack: " entry " is an exception, and needs to be none"
				failures++
			}
		if (rows == 0 || failures)
			exit 1
		print "test_stack: " rows " entries, none above " limit " bytes but " exceptions
	}' "$work/table"
