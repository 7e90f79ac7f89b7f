/*
 * Which record holds after an order.
 */
#include "plain.h"

fsk_held plain_holds(const uint8_t *old, size_t old_length, const uint8_t *second,
                     size_t second_length, uint32_t number, size_t length)
{
    (void)old, (void)second; /* which of them holds does not hang on their bytes */
    if (number == 0 && length <= second_length)
        return (fsk_held){1, length};
    return (fsk_held){0, old_length};
}
