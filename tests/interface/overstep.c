/* Two functions in place of the library's that access more than they are lent, which the tests have to notice. OVERSTEP says how. */
#include "lachsbrille.h"

#include <stdlib.h>
#include <string.h>

static bool is_asked(const char *step)
{
    const char *asked = getenv("OVERSTEP");
    return asked != NULL && strcmp(asked, step) == 0;
}

uint32_t lachsbrille_message_write_value(uint8_t *to, size_t to_length, uint32_t command, uint32_t element, uint16_t ddi,
                                         int32_t value)
{
    (void)command, (void)element, (void)ddi, (void)value;
    if (is_asked("write behind")) {
        to[to_length] ^= 1;
    } else if (is_asked("write before")) {
        *(to - 1) ^= 1;
    } else if (is_asked("read behind")) {
        return ((volatile uint8_t *)to)[to_length];
    } else if (is_asked("read before")) {
        return *((volatile uint8_t *)to - 1);
    }
    return LACHSBRILLE_OK;
}

lachsbrille_message_fields lachsbrille_message_read(const uint8_t *bytes, size_t bytes_length)
{
    const lachsbrille_message_fields none = {0, 0, 0, 0, 0, 0, 0};

    if (is_asked("write what is read")) {
        ((uint8_t *)bytes)[bytes_length - 1] ^= 1;
    }
    return none;
}
