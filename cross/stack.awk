# The stack of every function of an archive, from its disassembly: reads what `objdump -dr --no-show-raw-insn` prints of
# x86-64 or AArch64 code and prints a line for each function, its bytes and its name.
#
# Every function is walked from its first instruction along all its jumps, with the bytes that lie on the stack by then.
# An instruction that is reached with two different depths, one that moves the stack pointer in a way that is not known
# here, a call through a pointer, a function that calls itself and code that is never reached are errors: what is
# printed holds of every path. The targets of a jump table are taken to be the code that nothing else reaches.
#
# A function's bytes are those that it and all that it calls put on the stack, the red zone as far as it is used, and on
# x86-64 its return address. A call of a function that is not in the archive, so memcpy or memset, counts its return
# address alone. Arguments that the caller of an entry puts on the stack do not count.

function fail(text)
{
	print "stack: " name ": " text > "/dev/stderr"
	failed = 1
	exit 1
}

# A number as objdump prints it: hex or decimal, with # or $ before it; hex of 16 digits from f on is negative.
function value(text,    negative, n, i)
{
	gsub(/[#$]/, "", text)
	negative = sub(/^-/, "", text)
	if (text !~ /^0x/)
		return negative ? -text : text + 0
	text = substr(text, 3)
	if (length(text) == 16 && text ~ /^f/)
		return value("0x" substr(text, 9)) - 4294967296
	n = 0
	for (i = 1; i <= length(text); i++)
		n = 16 * n + index("0123456789abcdef", substr(text, i, 1)) - 1
	return negative ? -n : n
}

# How many bytes an instruction puts on the stack.
function pushed_x86(op, words)
{
	if (op ~ /^push/)
		return 8
	if (op ~ /^pop/)
		return -8
	if (words ~ /^\$[^,]*,%rsp$/ && op ~ /^sub/)
		return value(substr(words, 1, index(words, ",") - 1))
	if (words ~ /^\$[^,]*,%rsp$/ && op ~ /^add/)
		return -value(substr(words, 1, index(words, ",") - 1))
	if (words ~ /^[^,]*\(%rsp\),%rsp$/ && op ~ /^lea/)
		return -value(substr(words, 1, index(words, "(") - 1))
	if ((words ~ /,%[er]?spl?$/ && op !~ /^(cmp|test)/) || op ~ /^(leave|enter|xchg.*rsp)/)
		fail("not known: " op " " words)
	return 0
}

function pushed_arm(op, words,    part, n)
{
	if (words ~ /\[sp, #-?[0-9]+\]!/) {
		match(words, /#-?[0-9]+\]!/)
		return -value(substr(words, RSTART, RLENGTH - 2))
	}
	if (words ~ /\[sp\], #/) {
		match(words, /\[sp\], #/)
		return -value(substr(words, RSTART + RLENGTH))
	}
	if (words ~ /^sp, sp, #/ && op ~ /^(sub|add)$/) {
		split(words, part, ", ")
		n = value(part[3]) * (part[4] ~ /lsl #12/ ? 4096 : 1)
		return op == "sub" ? n : -n
	}
	if (words ~ /^sp,/ && op !~ /^cm[np]$/)
		fail("not known: " op " " words)
	return 0
}

# How far below the stack pointer an instruction reaches, as code with a red zone does.
function below(words)
{
	if (match(words, /-0x[0-9a-f]+\(%rsp/))
		return -value(substr(words, RSTART, RLENGTH - 5))
	if (match(words, /\[sp, #-[0-9]+\]$/))
		return -value(substr(words, RSTART + 5, RLENGTH - 6))
	return 0
}

# Says that an instruction is reached with a depth.
function reach(place, depth)
{
	if (place in depth_at) {
		if (depth_at[place] != depth)
			fail("reached with " depth_at[place] " and with " depth " bytes: " ops[place] " " args[place])
		return
	}
	depth_at[place] = depth
	waiting[++waits] = place
}

# A function that is called, or jumped to as the last thing, with a depth.
function leave_for(callee, depth)
{
	sub(/[-+]0x[0-9a-f]+$/, "", callee)
	sub(/^\.text\./, "", callee)
	calls[name] = calls[name] "\n" callee "\t" depth
	if (depth > own[name])
		own[name] = depth
}

# The instruction that a jump goes to; its address is the last word before the name in angle brackets.
function target_of(words,    part, n)
{
	sub(/ *<.*/, "", words)
	n = split(words, part, /[ ,]+/)
	if (!(part[n] in place_of))
		fail("jumps out of itself: " words)
	return place_of[part[n]]
}

function follow(place,    depth, op)
{
	op = ops[place]
	depth = depth_at[place] + (arm ? pushed_arm(op, args[place]) : pushed_x86(op, args[place]))
	if (depth < 0)
		fail("takes from the stack what is not its own")
	if (depth + below(args[place]) > own[name])
		own[name] = depth + below(args[place])
	if (op ~ /^(ret|ud2|hlt|brk|udf)/) {
		if (op ~ /^ret/ && depth != 0)
			fail("returns with " depth " bytes on the stack")
		return
	}
	if (op ~ /^call/ || op == "bl") {
		if (links[place] == "")
			fail("calls itself, or by a pointer")
		leave_for(links[place], depth + (arm ? 0 : 8))
	} else if (op == "blr") {
		fail("calls by a pointer")
	} else if (op == "br" || (op ~ /^jmp/ && args[place] ~ /^\*/)) {
		if (table_depth != "" && table_depth != depth)
			fail("has jump tables at two depths")
		table_depth = depth
		return
	} else if (op ~ /^j/ || op ~ /^b(\.|$)/ || op ~ /^[ct]bn?z$/) {
		if (links[place] != "")
			leave_for(links[place], depth)
		else
			reach(target_of(args[place]), depth)
		if (op ~ /^jmp/ || op == "b")
			return
	}
	if (place == count)
		fail("runs past its end")
	reach(place + 1, depth)
}

function is_filling(place)
{
	return ops[place] ~ /^(nop|int3|data16|cs|xchg)/
}

function walk(    i)
{
	if (name == "")
		return
	own[name] = 0
	waits = 0
	table_depth = ""
	reach(1, 0)
	for (i = 0; i <= count; i++) {
		while (waits > 0)
			follow(waiting[waits--])
		if (i > 0 && !(i in depth_at) && !is_filling(i)) {
			if (table_depth == "")
				fail("has code that is never reached: " ops[i] " " args[i])
			reach(i, table_depth)
		}
	}
	while (waits > 0)
		follow(waiting[waits--])
}

# The bytes of a function and of all that it calls.
function deepest(callee,    lines, n, i, part, most, all)
{
	if (!(callee in own))
		return 0
	if (callee in total)
		return total[callee]
	if (callee in open) {
		name = callee
		fail("calls itself")
	}
	open[callee] = 1
	most = own[callee]
	n = split(calls[callee], lines, "\n")
	for (i = 2; i <= n; i++) {
		split(lines[i], part, "\t")
		all = part[2] + deepest(part[1])
		if (all > most)
			most = all
	}
	delete open[callee]
	return total[callee] = most
}

/file format/ {
	arm = $0 ~ /aarch64/
}

/^[0-9a-f]+ <.*>:$/ {
	walk()
	name = $0
	sub(/^[0-9a-f]+ </, "", name)
	sub(/>:$/, "", name)
	if (name in own)
		fail("is there twice")
	count = 0
	split("", depth_at)
	split("", place_of)
	split("", links)
	next
}

/^[ \t]+[0-9a-f]+: R_/ {
	links[count] = $3
	next
}

/^ +[0-9a-f]+:\t/ {
	count++
	text = $0
	sub(/^ +/, "", text)
	place_of[substr(text, 1, index(text, ":") - 1)] = count
	sub(/^[0-9a-f]+:\t/, "", text)
	sub(/[ \t]+(\/\/|#) .*/, "", text)
	sub(/^(bnd|notrack|rep|repz|lock) +/, "", text)
	match(text, /^[^ \t]+/)
	ops[count] = substr(text, 1, RLENGTH)
	args[count] = substr(text, RLENGTH + 1)
	gsub(/^[ \t]+|[ \t]+$/, "", args[count])
}

END {
	if (failed)
		exit 1
	walk()
	for (callee in own)
		print deepest(callee) + (arm ? 0 : 8), callee
}
