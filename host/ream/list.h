/*
 * Lists in an option's value: items with commas between them. An item is a number, or two numbers with a
 * character between them, as in 7,12-15 and 1022:0,1023:0.
 */
#ifndef LIST_H
#define LIST_H

#include <stdbool.h>

#include "args.h"

struct list {
	const char *option;	/* with its command, to stand in a complaint */
	const char *text;	/* the whole list */
	const char *expected;	/* what it has to look like */
	char between;		/* the two numbers of an item */
	const char *rest;	/* what is not taken yet; NULL at the end */
};

struct item {
	struct numeral first;
	struct numeral second;	/* the first once more where there is one number alone */
	bool two;
	const char *text;	/* where it stands, and its length */
	int len;
};

/* Starts with a whole list. */
struct list list_begin(const char *option, const char *text, const char *expected, char between);

/* Takes the next item. At the end, and with a complaint where the list is wrong, there is none; only the end
 * leaves `rest` NULL. */
bool list_next(struct list *list, struct item *item);

#endif
