/*
 * A story as a picture. From left to right: the number and text of an event, the pages of the region's blocks as
 * the event left them, the table's version, and what came of a plan that ran to its end. The colours are those of
 * Okabe and Ito, which colour-blind readers can tell apart, and every cell has its letter or word besides.
 */
#include "svg.h"

#include <inttypes.h>

#include "story.h"
#include "tool.h"

/* Lengths, in pixels. */
enum {
	MARGIN = 24,
	NUMBERS = 64,		/* the column of the numbers, of up to four digits, with a bolt or a cross */
	TEXTS = 262,
	BLOCK_GAP = 22,
	NARROW_CELL = 50,	/* of several pages a block */
	WIDE_CELL = 110,	/* of one */
	TABLE = 104,
	VERSION_WIDTH = 56,
	RESULTS = 330,
	CELL_HEIGHT = 22,
	ROW = 32,
	TITLE = 34,		/* the lines of the head, from the top */
	SUBTITLE = 58,
	LEGEND = 78,
	LEGEND_ROW = 30,
	HEADS = 214,		/* the heads of the columns, and their height */
	HEAD = 46,
	ROWS = HEADS + HEAD,
	HEAD_TEXT = 20,		/* their lines, from their top */
	HEAD_PAGES = 37,
	HEAD_EVERY = 40,	/* so many rows they stand again */
};

/* Where the columns start, and how large the picture is. */
struct layout {
	unsigned cell;		/* the width of a cell */
	unsigned blocks, block;	/* the first block, and from one to the next */
	unsigned table, results;
	unsigned width, height;
};

/* Where a row starts, below the heads that stand again before it. */
static unsigned row_top(size_t row)
{
	return ROWS + (unsigned)row * ROW + (unsigned)(row / HEAD_EVERY) * HEAD;
}

static struct layout lay_out(const struct story *story)
{
	const unsigned pages = story->region.pages;
	struct layout layout;

	layout.cell = pages == 1 ? WIDE_CELL : NARROW_CELL;
	layout.blocks = MARGIN + NUMBERS + TEXTS;
	layout.block = pages * layout.cell + BLOCK_GAP;
	layout.table = layout.blocks + story->region.size * layout.block;
	layout.results = layout.table + TABLE;
	layout.width = layout.results + RESULTS + MARGIN;
	layout.height = row_top(story->rows - 1) + ROW + MARGIN;
	return layout;
}

/* ---- pieces */

static const char style[] =
	"<style>\n"
	"text { font-family: 'DejaVu Sans', Verdana, Arial, sans-serif; font-size: 13px; fill: #111 }\n"
	".title { font-size: 19px; font-weight: bold }\n"
	".head { font-weight: bold }\n"
	".small { font-size: 11px; fill: #444 }\n"
	".number { text-anchor: end; fill: #666; font-size: 11px }\n"
	".middle { text-anchor: middle }\n"
	".cell { text-anchor: middle; font-size: 12px; font-weight: bold }\n"
	".on-dark { fill: #fff }\n"
	".cut { fill: #b00020; font-weight: bold } .failed { fill: #a04400; font-weight: bold }\n"
	".primary { fill: #0072b2 } .mirror { fill: #e69f00 } .erased { fill: #fff } .unreadable { fill: #222 }\n"
	".bad { fill: #cc79a7 } .retired { fill: url(#crossed) } .other { fill: url(#hatch) }\n"
	".page { stroke: #777; stroke-width: 1 } .under { fill: none; stroke: #fff; stroke-width: 6 }\n"
	".touched { fill: none; stroke: #111; stroke-width: 2.5 }\n"
	".settled { fill: #e3f4ec; stroke: #009e73; stroke-width: 1.5 }\n"
	"</style>\n"
	"<defs><pattern id=\"hatch\" width=\"6\" height=\"6\" patternUnits=\"userSpaceOnUse\" "
	"patternTransform=\"rotate(45)\"><rect width=\"6\" height=\"6\" fill=\"#e4e4e4\"/>"
	"<rect width=\"1.5\" height=\"6\" fill=\"#bbb\"/></pattern>\n"
	"<pattern id=\"crossed\" width=\"8\" height=\"8\" patternUnits=\"userSpaceOnUse\" "
	"patternTransform=\"rotate(45)\"><rect width=\"8\" height=\"8\" fill=\"#f9ecf3\"/>"
	"<path d=\"M0 0 H8 M0 0 V8\" stroke=\"#d99bbf\" stroke-width=\"1.6\"/></pattern></defs>\n";

static void draw_text(FILE *stream, unsigned x, unsigned y, const char *kind, const char *text)
{
	fprintf(stream, "<text x=\"%u\" y=\"%u\" class=\"%s\">%s</text>\n", x, y, kind, text);
}

static void draw_box(FILE *stream, unsigned x, unsigned y, unsigned width, unsigned height, const char *kind)
{
	fprintf(stream, "<rect x=\"%u\" y=\"%u\" width=\"%u\" height=\"%u\" class=\"%s\"/>\n", x, y, width,
		height, kind);
}

/* The frame of the pages that an event is on, black on white so that it is seen on dark cells too. */
static void draw_frame(FILE *stream, unsigned x, unsigned y, unsigned width, unsigned height)
{
	draw_box(stream, x, y, width, height, "under");
	draw_box(stream, x, y, width, height, "touched");
}

/* A bolt, 14 wide and 20 high. */
static void draw_bolt(FILE *stream, unsigned x, unsigned y)
{
	fprintf(stream,
		"<path transform=\"translate(%u %u)\" d=\"M9 0 L1 11 L6 11 L4 20 L13 8 L8 8 Z\" "
		"fill=\"#b00020\"/>\n",
		x, y);
}

/* A cross, 14 wide and 20 high. */
static void draw_cross(FILE *stream, unsigned x, unsigned y)
{
	fprintf(stream,
		"<path transform=\"translate(%u %u)\" d=\"M2 5 L12 15 M12 5 L2 15\" stroke=\"#d55e00\" "
		"stroke-width=\"3.5\"/>\n",
		x, y);
}

static const char *page_kind(enum page_look page)
{
	static const char *const kinds[PAGE_LOOKS] = {
		[PAGE_PRIMARY] = "primary", [PAGE_MIRROR] = "mirror", [PAGE_ERASED] = "erased",
		[PAGE_UNREADABLE] = "unreadable", [PAGE_BAD] = "bad", [PAGE_RETIRED] = "retired",
		[PAGE_OTHER] = "other",
	};

	return kinds[page];
}

/* What stands in a cell: words in a wide one, in a narrow one letters. */
static void cell_label(char label[LOOK_LEN], enum page_look page, uint8_t version, bool wide)
{
	const bool copy = page == PAGE_PRIMARY || page == PAGE_MIRROR;

	if (wide && copy)
		snprintf(label, LOOK_LEN, "%s v%u", page_kind(page), version);
	else if (wide)
		snprintf(label, LOOK_LEN, "%s", page_kind(page));
	else if (copy)
		snprintf(label, LOOK_LEN, "%c%u", look_letter(page), version);
	else
		snprintf(label, LOOK_LEN, "%c", look_letter(page));
}

static void draw_cell(FILE *stream, unsigned x, unsigned y, unsigned width, enum page_look page,
		      const char *label)
{
	const bool dark = page == PAGE_PRIMARY || page == PAGE_UNREADABLE;
	char kind[LOOK_LEN];

	snprintf(kind, sizeof(kind), "page %s", page_kind(page));
	draw_box(stream, x, y, width, CELL_HEIGHT, kind);
	draw_text(stream, x + width / 2, y + 16, dark ? "cell on-dark" : "cell", label);
}

/* What reading the table gives: its version, if the pair is settled. */
static void draw_table(FILE *stream, unsigned x, unsigned y, bool settled, uint8_t version)
{
	char label[LOOK_LEN];

	if (!settled) {
		draw_text(stream, x, y + 16, "small", "not settled");
		return;
	}
	snprintf(label, sizeof(label), "v%u", version);
	fprintf(stream, "<rect x=\"%u\" y=\"%u\" width=\"%d\" height=\"%d\" rx=\"10\" class=\"settled\"/>\n", x,
		y, VERSION_WIDTH, CELL_HEIGHT);
	draw_text(stream, x + VERSION_WIDTH / 2, y + 16, "cell", label);
}

/* ---- the head */

static const char *title(const struct story *story)
{
	return story->setting.failures ? "A bad-block table through power cuts and failed steps"
				       : "A bad-block table through power cuts";
}

/* One line of the legend: a cell and its meaning. */
static void draw_meaning(FILE *stream, unsigned x, unsigned y, enum page_look page, bool wide,
			 const char *meaning)
{
	char label[LOOK_LEN];

	cell_label(label, page, 7, wide);
	draw_cell(stream, x, y, wide ? WIDE_CELL : NARROW_CELL, page, label);
	draw_text(stream, x + (wide ? WIDE_CELL : NARROW_CELL) + 8, y + 16, "small", meaning);
}

static void draw_legend(FILE *stream, bool wide)
{
	static const char *const meanings[PAGE_LOOKS] = {
		[PAGE_PRIMARY] = "page of a primary, version 7", [PAGE_MIRROR] = "page of a mirror, version 7",
		[PAGE_ERASED] = "erased page", [PAGE_UNREADABLE] = "page cannot be read",
		[PAGE_BAD] = "block marked bad, never erased", [PAGE_RETIRED] = "block retired by a zero step",
		[PAGE_OTHER] = "page with other bytes",
	};
	const unsigned column = wide ? 320 : 256, last = MARGIN + 3 * column, fourth = LEGEND + 3 * LEGEND_ROW;

	for (unsigned page = 0; page < PAGE_LOOKS; page++)
		draw_meaning(stream, MARGIN + page % 3 * column, LEGEND + page / 3 * LEGEND_ROW,
			     (enum page_look)page, wide, meanings[page]);
	draw_bolt(stream, last + 4, LEGEND + 1);
	draw_text(stream, last + 32, LEGEND + 16, "small", "power is cut: a red line across");
	draw_cross(stream, last + 4, LEGEND + LEGEND_ROW + 1);
	draw_text(stream, last + 32, LEGEND + LEGEND_ROW + 16, "small", "a step fails, power stays on");
	draw_frame(stream, last, LEGEND + 2 * LEGEND_ROW + 2, 22, 18);
	draw_text(stream, last + 32, LEGEND + 2 * LEGEND_ROW + 16, "small", "the event is on these pages");
	draw_table(stream, MARGIN, fourth, true, 7);
	draw_text(stream, MARGIN + VERSION_WIDTH + 8, fourth + 16, "small",
		  "settled: one good primary and one good mirror, alike; the table can be read, here version 7");
	draw_table(stream, last - 140, fourth, false, 0);
	draw_text(stream, last - 140 + 76, fourth + 16, "small",
		  "otherwise: the plan goes on, or after a cut a recovery is planned");
}

/* The heads of the columns, from y on. */
static void draw_heads(FILE *stream, const struct story *story, const struct layout *layout, unsigned y)
{
	const unsigned pages = story->region.pages;
	char label[LOOK_LEN];

	draw_text(stream, MARGIN + NUMBERS, y + HEAD_TEXT, "head", "event, from top to bottom");
	for (unsigned block = 0; block < story->region.size; block++) {
		const unsigned x = layout->blocks + block * layout->block;

		snprintf(label, sizeof(label), "block %" PRIu64, region_first(&story->region) + block);
		draw_text(stream, x + pages * layout->cell / 2, y + HEAD_TEXT, "head middle", label);
		for (unsigned page = 0; page < pages && pages > 1; page++) {
			snprintf(label, sizeof(label), "%u", page);
			draw_text(stream, x + page * layout->cell + layout->cell / 2, y + HEAD_PAGES,
				  "small middle", label);
		}
	}
	if (pages > 1)
		draw_text(stream, layout->blocks - 12, y + HEAD_PAGES, "number", "page");
	draw_text(stream, layout->table, y + HEAD_TEXT, "head", "table read");
	draw_text(stream, layout->results, y + HEAD_TEXT, "head", "what came of the plan");
}

static void draw_head(FILE *stream, const struct story *story, const struct layout *layout)
{
	const struct region *region = &story->region;

	fprintf(stream,
		"<text x=\"%d\" y=\"%d\" class=\"title\">%s: N = %" PRIu64
		" blocks, P = %u page%s a copy, seed %" PRIu64 "</text>\n",
		MARGIN, TITLE, title(story), region->n, region->pages, plural(region->pages), story->setting.seed);
	fprintf(stream,
		"<text x=\"%d\" y=\"%d\" class=\"small\">The table is kept twice, as primary and mirror, in two "
		"of the chip's last %s blocks. Each row shows these blocks as an event left them.</text>\n",
		MARGIN, SUBTITLE, size_word(region->size));
	draw_legend(stream, region->pages == 1);
	draw_heads(stream, story, layout, HEADS);
}

/* ---- the rows */

static void draw_pages(FILE *stream, const struct row *row, unsigned block, const struct layout *layout,
		       unsigned y)
{
	const struct look *look = &row->look[block];
	const unsigned x = layout->blocks + block * layout->block;
	char label[LOOK_LEN];

	for (unsigned page = 0; page < look->pages; page++) {
		cell_label(label, look->page[page], look->version[page], look->pages == 1);
		draw_cell(stream, x + page * layout->cell, y, layout->cell, look->page[page], label);
	}
	if (row->block == block && row->page == ALL_PAGES)
		draw_frame(stream, x, y, look->pages * layout->cell, CELL_HEIGHT);
	else if (row->block == block)
		draw_frame(stream, x + row->page * layout->cell, y, layout->cell, CELL_HEIGHT);
}

static bool is_plan(enum event event)
{
	return event == EVENT_UPDATE || event == EVENT_RECOVERY;
}

/* How the text of an event is drawn. */
static const char *event_kind(enum event event)
{
	if (event == EVENT_CUT)
		return "cut";
	if (event == EVENT_FAILED)
		return "failed";
	return is_plan(event) ? "head" : "step";
}

/* The background of a row, in a colour. */
static void draw_ground(FILE *stream, const struct layout *layout, unsigned y, const char *colour)
{
	fprintf(stream, "<rect x=\"%d\" y=\"%u\" width=\"%u\" height=\"%d\" fill=\"%s\"/>\n", MARGIN, y,
		layout->width - 2 * MARGIN, ROW, colour);
}

/* What shows the kind of an event: a background, and of a cut the bolt and the red line across the lower end. */
static void draw_event(FILE *stream, enum event event, const struct layout *layout, unsigned y)
{
	if (is_plan(event)) {
		draw_ground(stream, layout, y, "#eef2f6");
	} else if (event == EVENT_FAILED) {
		draw_ground(stream, layout, y, "#fdf0e0");
		draw_cross(stream, MARGIN + 2, y + 6);
	} else if (event == EVENT_CUT) {
		draw_ground(stream, layout, y, "#fde3e3");
		fprintf(stream, "<path d=\"M%d %u H%u\" stroke=\"#b00020\" stroke-width=\"3\"/>\n", MARGIN, y + ROW,
			layout->width - MARGIN);
		draw_bolt(stream, MARGIN + 2, y + 6);
	}
}

static void draw_result(FILE *stream, const struct story *story, const struct row *row,
			const struct layout *layout, unsigned y)
{
	char words[RESULT_LEN];

	story_result(row, words);
	draw_text(stream, layout->results, y + 14, "head", words);
	story_reason(story, row, words);
	draw_text(stream, layout->results, y + 27, "small", words);
}

static void draw_row(FILE *stream, const struct story *story, size_t number, const struct layout *layout,
		     unsigned y)
{
	const struct row *row = &story->row[number];
	char label[LOOK_LEN], words[EVENT_LEN];

	draw_event(stream, row->event, layout, y);
	snprintf(label, sizeof(label), "%zu", number);
	story_event(story, row, words);
	draw_text(stream, MARGIN + NUMBERS - 8, y + 21, "number", label);
	draw_text(stream, MARGIN + NUMBERS, y + 21, event_kind(row->event), words);
	for (unsigned block = 0; block < story->region.size; block++)
		draw_pages(stream, row, block, layout, y + 5);
	draw_table(stream, layout->table, y + 5, row->settled, row->version);
	if (row->result != RESULT_NONE)
		draw_result(stream, story, row, layout, y);
}

bool svg_fill(FILE *stream, const void *from)
{
	const struct story *story = from;
	const struct layout layout = lay_out(story);

	fprintf(stream,
		"<?xml version=\"1.0\" encoding=\"UTF-8\"?>\n"
		"<svg xmlns=\"http://www.w3.org/2000/svg\" width=\"%u\" height=\"%u\" viewBox=\"0 0 %u %u\">\n"
		"<title>%s</title>\n",
		layout.width, layout.height, layout.width, layout.height, title(story));
	fputs(style, stream);
	fprintf(stream, "<rect width=\"%u\" height=\"%u\" fill=\"#fff\"/>\n", layout.width, layout.height);
	draw_head(stream, story, &layout);
	for (size_t i = 0; i < story->rows; i++) {
		if (i > 0 && i % HEAD_EVERY == 0)
			draw_heads(stream, story, &layout, row_top(i) - HEAD);
		draw_row(stream, story, i, &layout, row_top(i));
	}
	fputs("</svg>\n", stream);
	return true;
}
