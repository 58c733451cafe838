/* Prints size and alignment of each struct of the header, and offset and size of each field. */
#include "lachsbrille.h"

#include <stdio.h>

#define STRUCT(type)                     \
    {                                    \
        struct aligned {                 \
            char before;                 \
            type value;                  \
        };                               \
        printf("%s size %zu align %zu\n", #type, sizeof(type), offsetof(struct aligned, value)); \
    }

#define FIELD(type, field) \
    printf("%s.%s at %zu size %zu\n", #type, #field, offsetof(type, field), sizeof(((type *)0)->field));

int main(void)
{
    STRUCT(lachsbrille_record)
    FIELD(lachsbrille_record, start)
    FIELD(lachsbrille_record, length)
    FIELD(lachsbrille_record, kind)
    FIELD(lachsbrille_record, id)
    FIELD(lachsbrille_record, parent)

    STRUCT(lachsbrille_device_labels)
    FIELD(lachsbrille_device_labels, number)
    FIELD(lachsbrille_device_labels, structure)
    FIELD(lachsbrille_device_labels, localization)
    FIELD(lachsbrille_device_labels, extended)
    FIELD(lachsbrille_device_labels, extended_length)

    STRUCT(lachsbrille_span)
    FIELD(lachsbrille_span, from)
    FIELD(lachsbrille_span, to)

    STRUCT(lachsbrille_device)
    FIELD(lachsbrille_device, designator)
    FIELD(lachsbrille_device, version)
    FIELD(lachsbrille_device, name)
    FIELD(lachsbrille_device, serial)
    FIELD(lachsbrille_device, structure)
    FIELD(lachsbrille_device, localization)
    FIELD(lachsbrille_device, extended)

    STRUCT(lachsbrille_element)
    FIELD(lachsbrille_element, type)
    FIELD(lachsbrille_element, designator)
    FIELD(lachsbrille_element, number)
    FIELD(lachsbrille_element, parent)
    FIELD(lachsbrille_element, entries)

    STRUCT(lachsbrille_process_data)
    FIELD(lachsbrille_process_data, ddi)
    FIELD(lachsbrille_process_data, properties)
    FIELD(lachsbrille_process_data, triggers)
    FIELD(lachsbrille_process_data, designator)
    FIELD(lachsbrille_process_data, presentation)

    STRUCT(lachsbrille_property)
    FIELD(lachsbrille_property, ddi)
    FIELD(lachsbrille_property, value)
    FIELD(lachsbrille_property, designator)
    FIELD(lachsbrille_property, presentation)

    STRUCT(lachsbrille_presentation)
    FIELD(lachsbrille_presentation, offset)
    FIELD(lachsbrille_presentation, scale)
    FIELD(lachsbrille_presentation, decimals)
    FIELD(lachsbrille_presentation, unit)

    STRUCT(lachsbrille_session)
    FIELD(lachsbrille_session, announced)
    FIELD(lachsbrille_session, received)
    FIELD(lachsbrille_session, kept)
    FIELD(lachsbrille_session, stage)
    FIELD(lachsbrille_session, active)

    STRUCT(lachsbrille_step)
    FIELD(lachsbrille_step, session)
    FIELD(lachsbrille_step, place)
    FIELD(lachsbrille_step, number)
    FIELD(lachsbrille_step, record)
    FIELD(lachsbrille_step, rule)
    FIELD(lachsbrille_step, item)
    FIELD(lachsbrille_step, id)
    FIELD(lachsbrille_step, parent)

    STRUCT(lachsbrille_message_fields)
    FIELD(lachsbrille_message_fields, number)
    FIELD(lachsbrille_message_fields, value)
    FIELD(lachsbrille_message_fields, element)
    FIELD(lachsbrille_message_fields, ddi)
    FIELD(lachsbrille_message_fields, command)
    FIELD(lachsbrille_message_fields, errors)
    FIELD(lachsbrille_message_fields, answered)

    STRUCT(lachsbrille_log_fields)
    FIELD(lachsbrille_log_fields, time)
    FIELD(lachsbrille_log_fields, days)
    FIELD(lachsbrille_log_fields, north)
    FIELD(lachsbrille_log_fields, east)
    FIELD(lachsbrille_log_fields, up)
    FIELD(lachsbrille_log_fields, status)
    FIELD(lachsbrille_log_fields, pdop)
    FIELD(lachsbrille_log_fields, hdop)
    FIELD(lachsbrille_log_fields, satellites)
    FIELD(lachsbrille_log_fields, gps_time)
    FIELD(lachsbrille_log_fields, gps_date)

    STRUCT(lachsbrille_log_marks)
    FIELD(lachsbrille_log_marks, number)
    FIELD(lachsbrille_log_marks, count)

    STRUCT(lachsbrille_log_record)
    FIELD(lachsbrille_log_record, number)
    FIELD(lachsbrille_log_record, length)
    FIELD(lachsbrille_log_record, count)
    FIELD(lachsbrille_log_record, fields)

    STRUCT(lachsbrille_log_written)
    FIELD(lachsbrille_log_written, number)
    FIELD(lachsbrille_log_written, length)

    STRUCT(lachsbrille_log_outcome)
    FIELD(lachsbrille_log_outcome, number)
    FIELD(lachsbrille_log_outcome, count)
    FIELD(lachsbrille_log_outcome, start)
    return 0;
}
