/* The enrolment rules beside reading and orders: what a check must answer there.
 *
 * Rule 1 has the number and place with which a record was read, but accepts it where
 * only the room for its sheet was too short. The record that an accepted order left has
 * the answers of the record that it was given, by either rule.
 *
 * replay.c is the only program with this file, so its functions stand here whole.
 */
#ifndef RULES_SAME_H
#define RULES_SAME_H

#include <stdint.h>

#include "case_file.h"
#include "compare.h"
#include "fsk.h"
#include "guard.h"
#include "library.h"

enum { FIRST_RULE = 1, LAST_RULE = 2, TOO_SHORT = 20 };

/* Whether a case is about a record that the rules have to answer alike. */
static int has_same_rules(const test_case *c)
{
    static const int is_order[CALLS] = {[REMOVE] = 1, [JOIN] = 1, [PART] = 1, [PAIRS] = 1};
    return c->call == READ || (is_order[c->call] && c->number == 0);
}

/* The check of a record, with the answer that it must have. */
static test_case check_call(uint32_t rule, slice record, fsk_answer answer)
{
    test_case made = {.call = CHECK, .numbers = {rule}, .inputs = {record}};
    made.numbers_passed = calls[CHECK].numbers;
    made.inputs_lent = calls[CHECK].inputs;
    made.number = answer.number;
    made.place = answer.place;
    made.length = answer.length;
    return made;
}

/* Whether a rule answers the new record in another way than the old one. */
static int rule_differs(uint32_t index, uint32_t rule, slice old, slice new)
{
    fsk_answer found = {0, 0, 0};
    test_case check = check_call(rule, old, found);
    lend(&check, AT_END);
    if (!guarded_call(&check, &found))
        return fault_is_wrong(index, &check, AT_END);
    check = check_call(rule, new, found);
    return run_is_wrong(index, &check, AT_END);
}

static int rules_are_wrong(uint32_t index, const test_case *c)
{
    int is_wrong = 0;
    if (c->call == READ) {
        fsk_answer read = {c->number == TOO_SHORT ? 0 : c->number, c->place, 0};
        test_case check = check_call(FIRST_RULE, c->inputs[0], read);
        return run_is_wrong(index, &check, AT_END);
    }
    for (uint32_t rule = FIRST_RULE; rule <= LAST_RULE; rule++)
        is_wrong |= rule_differs(index, rule, c->inputs[0], c->written);
    return is_wrong;
}

#endif
