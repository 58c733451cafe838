/* The calls whose result goes through `out`, as functions that return it. Before the call it holds bytes that no call gives, so that
 * a field which is not written is noticed. */
#ifndef CALLS_H
#define CALLS_H

#include "lachsbrille.h"

#include <string.h>

#define RESULT(type, name) \
    type name;             \
    memset(&name, 0xA5, sizeof name)

static inline lachsbrille_device_labels labels_of(const uint8_t *pool, size_t pool_length, lachsbrille_record *table,
                                                  size_t table_length)
{
    RESULT(lachsbrille_device_labels, out);
    lachsbrille_labels(&out, pool, pool_length, table, table_length);
    return out;
}

static inline lachsbrille_device read_device(const uint8_t *pool, size_t pool_length, uint16_t start)
{
    RESULT(lachsbrille_device, out);
    lachsbrille_read_device(&out, pool, pool_length, start);
    return out;
}

static inline lachsbrille_element read_element(const uint8_t *pool, size_t pool_length, uint16_t start)
{
    RESULT(lachsbrille_element, out);
    lachsbrille_read_element(&out, pool, pool_length, start);
    return out;
}

static inline lachsbrille_process_data read_process_data(const uint8_t *pool, size_t pool_length, uint16_t start)
{
    RESULT(lachsbrille_process_data, out);
    lachsbrille_read_process_data(&out, pool, pool_length, start);
    return out;
}

static inline lachsbrille_property read_property(const uint8_t *pool, size_t pool_length, uint16_t start)
{
    RESULT(lachsbrille_property, out);
    lachsbrille_read_property(&out, pool, pool_length, start);
    return out;
}

static inline lachsbrille_presentation read_presentation(const uint8_t *pool, size_t pool_length, uint16_t start)
{
    RESULT(lachsbrille_presentation, out);
    lachsbrille_read_presentation(&out, pool, pool_length, start);
    return out;
}

static inline lachsbrille_step offer(lachsbrille_session session, size_t size, const uint8_t *staging, size_t staging_length,
                                     const uint8_t *kept, size_t kept_length)
{
    RESULT(lachsbrille_step, out);
    lachsbrille_session_offer(&out, session, size, staging, staging_length, kept, kept_length);
    return out;
}

static inline lachsbrille_step transfer(lachsbrille_session session, const uint8_t *piece, size_t piece_length, uint8_t *staging,
                                        size_t staging_length)
{
    RESULT(lachsbrille_step, out);
    lachsbrille_session_transfer(&out, session, piece, piece_length, staging, staging_length);
    return out;
}

static inline lachsbrille_step activate(lachsbrille_session session, const uint8_t *staging, size_t staging_length, uint8_t *kept,
                                        size_t kept_length, lachsbrille_record *table, size_t table_length)
{
    RESULT(lachsbrille_step, out);
    lachsbrille_session_activate(&out, session, staging, staging_length, kept, kept_length, table, table_length);
    return out;
}

static inline lachsbrille_step deactivate(lachsbrille_session session)
{
    RESULT(lachsbrille_step, out);
    lachsbrille_session_deactivate(&out, session);
    return out;
}

static inline lachsbrille_step delete_pool(lachsbrille_session session)
{
    RESULT(lachsbrille_step, out);
    lachsbrille_session_delete(&out, session);
    return out;
}

static inline lachsbrille_step lost(lachsbrille_session session)
{
    RESULT(lachsbrille_step, out);
    lachsbrille_session_lost(&out, session);
    return out;
}

static inline lachsbrille_log_record read_log_record(const uint8_t *bytes, size_t bytes_length, uint32_t layout, size_t logged,
                                                     uint8_t *ordinals, size_t ordinals_length, int32_t *values,
                                                     size_t values_length)
{
    RESULT(lachsbrille_log_record, out);
    lachsbrille_log_read_record(&out, bytes, bytes_length, layout, logged, ordinals, ordinals_length, values, values_length);
    return out;
}

static inline lachsbrille_log_outcome read_log(const uint8_t *bytes, size_t bytes_length, uint32_t layout, size_t logged)
{
    RESULT(lachsbrille_log_outcome, out);
    lachsbrille_log_read(&out, bytes, bytes_length, layout, logged);
    return out;
}

#endif
