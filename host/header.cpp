// The header in C++: that it compiles and links there, with both kinds of answer, that there are words for every number, also for
// those that no call answers, and that just 2 to 12 say what their place is.
#include "fsk.h"

static bool has_words(uint32_t number)
{
    const bool has_place = number >= 2 && number <= 12;
    return *fsk_text(number) != '\0' && *fsk_advice(number) != '\0' && (*fsk_where(number) != '\0') == has_place;
}

int main()
{
    if (fsk_read(nullptr, 0, nullptr, 0).number != FSK_BAD_SIZE)
        return 1;
    const uint8_t old[7] = {};
    const fsk_held held = fsk_holds(old, sizeof old, nullptr, 0, FSK_BAD_SIZE, 0);
    if (held.second != 0 || held.length != sizeof old)
        return 1;
    for (uint32_t number = 0; number <= FSK_NUMBERS; number++)
        if (!has_words(number))
            return 1;
    return !has_words(UINT32_MAX);
}
