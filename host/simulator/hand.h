/*
 * The plan in hand of a history, and what is noted of its events. A plan is taken in hand, its steps are done one
 * after the other, and it is over by its end, by a cut, by another plan, or because it is given up. When a step fails
 * it is made again, from the same snapshot and with the failed steps' numbers, and goes on at step 0.
 */
#ifndef HAND_H
#define HAND_H

#include "history.h"
#include "reamsickle.h"

/* Notes an event in words, as printf() has them. */
void note(struct history *history, const char *format, ...);

/* Counts it. */
void count(struct history *history, enum tally_row row);

/* A rule of the calls themselves. */
void require(struct history *history, bool holds, const char *rule);

/* The rule that was broken, or NULL. */
const char *broken(const struct history *history);

/* "update" or "recovery". */
const char *holding_name(enum holding holding);

/* Step i of the plan in hand, and the block of the region that a step is on. */
struct ream_step told_step(const struct hand *hand, unsigned i);
unsigned region_block(const struct history *history, const struct ream_step *step);

/* Takes a plan that was just given into the hand. One with no step has run to its end. */
void take_in_hand(struct history *history, enum holding holding, const uint8_t *wanted, uint64_t answer);

/* Takes the steps of a plan that was just given: a first plan's, or that of the plan in hand made again. */
void take_steps(struct history *history, uint64_t answer);

/* The plan in hand is over, by its end, by a cut, by another plan, or because it is given up. */
void close_hand(struct history *history);

/* It ran to its end. */
void end_hand(struct history *history);

/* A plan was given while another was in hand: that one is replaced. */
void replace_hand(struct history *history);

/* The entries that make the plan in hand again, and that give its pages. */
enum asked plan_asked(const struct hand *hand);
enum asked page_asked(const struct hand *hand);

/* A call with what the first plan in hand was made from, and with its failed steps. */
struct request request_again(const struct hand *hand, enum asked asked);

/* Asks for the page of a step of the plan in hand. */
uint64_t ask_page(struct history *history, uint64_t step, enum flaw flaw);

/* The page that the next step, a write, puts down. */
const uint8_t *next_page(struct history *history);

#endif
