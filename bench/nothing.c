/*
 * The call that does nothing: all it takes of the stack is its return address. It has a file of its
 * own, so that no compiler can leave out a call of it (calls.c), and it can stand for a call of any
 * shape, since it looks at no argument and an fsk_held is given back like an fsk_answer.
 */
#include "fsk.h"

fsk_answer nothing(void);

fsk_answer nothing(void)
{
    return (fsk_answer){0, 0, 0};
}
