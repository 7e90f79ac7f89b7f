/*
 * Checks a record by an enrolment rule: the rule's number, then the record, then its bits of a
 * direction. Refusals 30 and 31.
 */
#include "plain.h"

static const struct {
    uint32_t number;
    unsigned least;
} rules[] = {{1, 4}, {2, 6}};

fsk_answer plain_check(uint32_t rule, const uint8_t *record, size_t record_length)
{
    const plain_name any = {0, 0};
    plain_record judged;
    fsk_answer refusal;
    size_t row = 0;
    while (row < sizeof rules / sizeof *rules && rules[row].number != rule)
        row++;
    if (row == sizeof rules / sizeof *rules)
        return plain_refused(NO_RULE);
    refusal = plain_judge(record, record_length, any, &judged);
    if (refusal.number != 0)
        return refusal;
    return judged.b < rules[row].least ? plain_refused(BELOW_RULE) : plain_accepted(0);
}
