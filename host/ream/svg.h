/* A story as a picture (SVG): blocks as columns, events as rows, a cell for each page. */
#ifndef SVG_H
#define SVG_H

#include <stdbool.h>
#include <stdio.h>

/* Draws it. For struct output: from a struct story. */
bool svg_fill(FILE *stream, const void *story);

#endif
