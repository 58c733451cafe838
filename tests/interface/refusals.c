/* Every refusal of every call, by its name in the header, and what lent memory holds afterwards. */
#include "calls.h"
#include "check.h"
#include "lachsbrille.h"
#include "pools.h"

enum { LEFT = 0xA5, ENTRIES = 5, AREA = 80 };

/* The numbers of document 01. */
static const uint8_t numbers[] = {1,  2,  3,  4,  5,  6,  7,  20, 21, 22, 23, 24, 25, 26, 27,
                                  28, 30, 31, 32, 33, 40, 41, 42, 43, 44, 45, 46, 47, 48, 50};

/* How often each was given. */
static unsigned given[51];

#define REFUSED(call, name) refused(__FILE__, __LINE__, #call, call, name)

static void refused(const char *file, int line, const char *call, uint32_t number, uint32_t expected)
{
    equal(file, line, call, number, expected);
    if (number < sizeof given / sizeof *given) {
        given[number]++;
    }
}

/* Checks that memory is as it was before it was lent. */
static void left(const void *lent, size_t size)
{
    const uint8_t *bytes = (const uint8_t *)lent;
    size_t at;

    for (at = 0; at < size; at++) {
        EQUAL(bytes[at], LEFT);
    }
}

/* Checks that a part of a result is 0: after a refusal all of a result but the number is. */
static void zero(const void *part, size_t size)
{
    const uint8_t *bytes = (const uint8_t *)part;
    size_t at;

    for (at = 0; at < size; at++) {
        EQUAL(bytes[at], 0);
    }
}

/* ---- Pools: every call with a table refuses a pool in the same way ---- */

static lachsbrille_record table[ENTRIES];
static uint16_t faults[2 * LACHSBRILLE_FAULT_WORDS];

/* Checks that the table has the first records of Q, and is otherwise as it was. */
static void has_records_of_q(size_t records)
{
    static const lachsbrille_record of_q[] = {
        {.start = 0, .length = 31, .kind = LACHSBRILLE_DVC, .id = 0, .parent = LACHSBRILLE_NO_ID},
        {.start = 31, .length = 13, .kind = LACHSBRILLE_DET, .id = 1, .parent = 0},
        {.start = 44, .length = 15, .kind = LACHSBRILLE_DET, .id = 2, .parent = 1},
        {.start = 59, .length = 12, .kind = LACHSBRILLE_DPD, .id = 3, .parent = LACHSBRILLE_NO_ID},
    };

    SAME(table, of_q, records * sizeof *of_q);
    left(table + records, (ENTRIES - records) * sizeof *table);
}

/* A pool that is not read, by any call with a table; all of them leave lent memory as it was. */
static void not_read(const uint8_t *pool, size_t length, size_t entries, uint32_t name, size_t place)
{
    lachsbrille_device_labels labels;
    size_t value = 9, from = 9, to = 9;
    uint8_t error = 9;

    memset(table, LEFT, sizeof table);
    memset(faults, LEFT, sizeof faults);
    REFUSED(lachsbrille_read(pool, length, table, entries, &value), name);
    EQUAL(value, place);
    value = 9;
    REFUSED(lachsbrille_check(pool, length, table, entries, faults, sizeof faults / sizeof *faults, &value), name);
    EQUAL(value, place);
    REFUSED(lachsbrille_text(pool, length, table, entries, 0, &from, &to), name);
    EQUAL(from, 0);
    EQUAL(to, 0);
    labels = labels_of(pool, length, table, entries);
    REFUSED(labels.number, name);
    zero(labels.structure, sizeof labels.structure);
    zero(labels.localization, sizeof labels.localization);
    zero(labels.extended, sizeof labels.extended);
    EQUAL(labels.extended_length, 0);
    REFUSED(lachsbrille_judge(pool, length, table, entries, 4, 1, 141, 0, &error), name);
    EQUAL(error, 0);
    left(table, sizeof table);
    left(faults, sizeof faults);
}

/* A pool that is sent in full and not activated; returns the stage of the session afterwards. */
static unsigned not_activated(const uint8_t *pool, size_t length, size_t entries, uint32_t name, size_t place)
{
    static uint8_t staging[AREA], kept[AREA];
    lachsbrille_session session = lachsbrille_session_new();
    lachsbrille_step step;

    memset(staging, LEFT, sizeof staging);
    memset(kept, LEFT, sizeof kept);
    memset(table, LEFT, sizeof table);
    session = offer(session, length, staging, AREA, kept, AREA).session;
    session = transfer(session, pool, length, staging, AREA).session;
    step = activate(session, staging, AREA, kept, AREA, table, entries);
    REFUSED(step.number, name);
    EQUAL(step.place, place);
    EQUAL(step.session.kept, 0);
    EQUAL(step.session.active, 0);
    EQUAL(step.session.announced, step.session.stage == LACHSBRILLE_STAGE_OFFERED ? length : 0);
    EQUAL(step.session.received, step.session.stage == LACHSBRILLE_STAGE_OFFERED ? length : 0);
    EQUAL(step.record, name == LACHSBRILLE_FAULTY ? 3 : 0);
    EQUAL(step.rule, name == LACHSBRILLE_FAULTY ? 6 : 0);
    EQUAL(step.item, name == LACHSBRILLE_FAULTY ? 2 : 0);
    EQUAL(step.id, name == LACHSBRILLE_FAULTY ? 2 : 0);
    EQUAL(step.parent, name == LACHSBRILLE_FAULTY ? 1 : 0);
    left(kept, sizeof kept);
    if (name != LACHSBRILLE_FAULTY) {
        left(table, sizeof table);
    }
    return step.session.stage;
}

static void pools(void)
{
    static uint8_t pool[LACHSBRILLE_POOL_MOST + 1];
    static lachsbrille_record longest[LACHSBRILLE_RECORDS_MOST];
    static const uint8_t shortest_record[] = {'D', 'P', 'D', 1, 0, 0, 0, 0, 0, 0, 0xFF, 0xFF};
    size_t value, from = 9, to = 9, record;
    uint8_t error = 9;

    not_read(q, 0, ENTRIES, LACHSBRILLE_EMPTY_POOL, 0);
    not_read(LACHSBRILLE_NOTHING, 0, ENTRIES, LACHSBRILLE_EMPTY_POOL, 0);
    not_read(pool, sizeof pool, ENTRIES, LACHSBRILLE_LONG_POOL, 0);
    memcpy(pool, q, Q);
    pool[31] = 'X';
    not_read(pool, Q, ENTRIES, LACHSBRILLE_NO_MARK, 31);
    EQUAL(not_activated(pool, Q, ENTRIES, LACHSBRILLE_NO_MARK, 31), LACHSBRILLE_STAGE_NONE);
    not_read(q, Q - 1, ENTRIES, LACHSBRILLE_CUT_RECORD, 59);
    EQUAL(not_activated(q, Q - 1, ENTRIES, LACHSBRILLE_CUT_RECORD, 59), LACHSBRILLE_STAGE_NONE);
    memcpy(pool, q, Q);
    pool[5] = 129;
    not_read(pool, Q, ENTRIES, LACHSBRILLE_LONG_TEXT, 5);
    EQUAL(not_activated(pool, Q, ENTRIES, LACHSBRILLE_LONG_TEXT, 5), LACHSBRILLE_STAGE_NONE);
    not_read(q, Q, 3, LACHSBRILLE_SHORT_TABLE, 4);
    EQUAL(not_activated(q, Q, 3, LACHSBRILLE_SHORT_TABLE, 4), LACHSBRILLE_STAGE_OFFERED);

    /* As many records as fit into the longest pool: too few for refusal 6. */
    for (record = 0; record < LACHSBRILLE_RECORDS_MOST; record++) {
        memcpy(pool + record * sizeof shortest_record, shortest_record, sizeof shortest_record);
    }
    EQUAL(lachsbrille_read(pool, record * sizeof shortest_record, longest, LACHSBRILLE_RECORDS_MOST, &value), LACHSBRILLE_OK);
    EQUAL(value, LACHSBRILLE_RECORDS_MOST);
    EQUAL((LACHSBRILLE_RECORDS_MOST + 1) * sizeof shortest_record > LACHSBRILLE_POOL_MOST, 1);

    /* A pool with a fault: the table is filled. */
    memset(table, LEFT, sizeof table);
    REFUSED(lachsbrille_text(q, ELEMENT_END, table, ENTRIES, 0, &from, &to), LACHSBRILLE_FAULTY);
    EQUAL(from + to, 0);
    has_records_of_q(3);
    memset(table, LEFT, sizeof table);
    REFUSED(labels_of(q, ELEMENT_END, table, ENTRIES).number, LACHSBRILLE_FAULTY);
    has_records_of_q(3);
    memset(table, LEFT, sizeof table);
    REFUSED(lachsbrille_judge(q, ELEMENT_END, table, ENTRIES, 4, 1, 141, 0, &error), LACHSBRILLE_FAULTY);
    EQUAL(error, 0);
    has_records_of_q(3);
    EQUAL(not_activated(q, ELEMENT_END, ENTRIES, LACHSBRILLE_FAULTY, 0), LACHSBRILLE_STAGE_NONE);
    has_records_of_q(3);

    from = to = 9;
    memset(table, LEFT, sizeof table);
    REFUSED(lachsbrille_text(q, Q, table, ENTRIES, LACHSBRILLE_NO_ID, &from, &to), LACHSBRILLE_NO_SUCH_ID);
    EQUAL(from + to, 0);
    has_records_of_q(4);

    /* Truncated to 16 bits it would be the device's ID. */
    from = to = 9;
    REFUSED(lachsbrille_text(q, Q, table, ENTRIES, 65536, &from, &to), LACHSBRILLE_NO_SUCH_ID);
    EQUAL(from + to, 0);

    error = 9;
    memset(table, LEFT, sizeof table);
    REFUSED(lachsbrille_judge(q, 0, table, ENTRIES, 4, LACHSBRILLE_ELEMENT_MOST + 1, 141, 0, &error), LACHSBRILLE_BAD_ELEMENT);
    EQUAL(error, 0);
    error = 9;
    REFUSED(lachsbrille_judge(q, Q, table, ENTRIES, 4, 65536 + 1, 141, 0, &error), LACHSBRILLE_BAD_ELEMENT);
    EQUAL(error, 0);
    left(table, sizeof table);

    /* Truncated to 8 bits it would be command 3, which is refused as not settable. */
    EQUAL(lachsbrille_judge(q, Q, table, ENTRIES, 259, 1, 141, 0, &error), LACHSBRILLE_OK);
    EQUAL(error, LACHSBRILLE_ERROR_COMMAND);
}

/* ---- Sessions ---- */

#define STEP_REFUSED(call, session, name) step_refused(__FILE__, __LINE__, #call, call, session, name)

/* A refused call leaves the session as it was given, and has neither a place nor a fault. */
static void step_refused(const char *file, int line, const char *call, lachsbrille_step step, lachsbrille_session session,
                         uint32_t name)
{
    refused(file, line, call, step.number, name);
    equal(file, line, call, step.session.announced, session.announced);
    equal(file, line, call, step.session.received, session.received);
    equal(file, line, call, step.session.kept, session.kept);
    equal(file, line, call, step.session.stage, session.stage);
    equal(file, line, call, step.session.active, session.active);
    equal(file, line, call, (long long)step.place, 0);
    equal(file, line, call, step.record, 0);
    equal(file, line, call, step.rule, 0);
    equal(file, line, call, step.item, 0);
    equal(file, line, call, step.id, 0);
    equal(file, line, call, step.parent, 0);
}

/* Every session call with a session value that can't arise. */
static void impossible(uint16_t stage, uint16_t active, uint32_t announced, uint32_t received, uint32_t kept_size)
{
    static uint8_t staging[AREA], kept[AREA];
    lachsbrille_session session = {
        .announced = announced, .received = received, .kept = kept_size, .stage = stage, .active = active};

    memset(staging, LEFT, sizeof staging);
    memset(kept, LEFT, sizeof kept);
    memset(table, LEFT, sizeof table);
    STEP_REFUSED(offer(session, 10, staging, AREA, kept, AREA), session, LACHSBRILLE_IMPOSSIBLE_SESSION);
    STEP_REFUSED(transfer(session, q, 1, staging, AREA), session, LACHSBRILLE_IMPOSSIBLE_SESSION);
    STEP_REFUSED(activate(session, staging, AREA, kept, AREA, table, ENTRIES), session, LACHSBRILLE_IMPOSSIBLE_SESSION);
    STEP_REFUSED(deactivate(session), session, LACHSBRILLE_IMPOSSIBLE_SESSION);
    STEP_REFUSED(delete_pool(session), session, LACHSBRILLE_IMPOSSIBLE_SESSION);
    STEP_REFUSED(lost(session), session, LACHSBRILLE_IMPOSSIBLE_SESSION);
    left(staging, sizeof staging);
    left(kept, sizeof kept);
    left(table, sizeof table);
}

static void sessions(void)
{
    static uint8_t staging[AREA], kept[AREA];
    const lachsbrille_session none = lachsbrille_session_new();
    const lachsbrille_session offered = {.announced = Q, .kept = 9, .stage = LACHSBRILLE_STAGE_OFFERED, .active = 1};
    const lachsbrille_session keeping = {.kept = Q};
    lachsbrille_session session;

    memset(staging, LEFT, sizeof staging);
    memset(kept, LEFT, sizeof kept);
    memset(table, LEFT, sizeof table);
    STEP_REFUSED(offer(none, 0, staging, AREA, kept, AREA), none, LACHSBRILLE_BAD_SIZE);
    STEP_REFUSED(offer(none, LACHSBRILLE_POOL_MOST + 1, staging, AREA, kept, AREA), none, LACHSBRILLE_BAD_SIZE);
    STEP_REFUSED(offer(offered, AREA, staging, AREA - 1, kept, AREA), offered, LACHSBRILLE_SHORT_AREA);
    STEP_REFUSED(offer(offered, AREA, staging, AREA, kept, AREA - 1), offered, LACHSBRILLE_SHORT_AREA);

    STEP_REFUSED(transfer(none, q, 1, staging, AREA), none, LACHSBRILLE_NOTHING_OFFERED);
    STEP_REFUSED(transfer(offered, q, 0, staging, AREA), offered, LACHSBRILLE_BAD_PIECE);
    STEP_REFUSED(transfer(offered, LACHSBRILLE_NOTHING, 0, staging, AREA), offered, LACHSBRILLE_BAD_PIECE);
    STEP_REFUSED(transfer(offered, q, Q, staging, Q - 1), offered, LACHSBRILLE_SHORT_AREA);
    session = offered;
    session.received = Q - 1;
    STEP_REFUSED(transfer(session, q, 2, staging, AREA), session, LACHSBRILLE_BAD_PIECE);

    STEP_REFUSED(activate(none, staging, AREA, kept, AREA, table, ENTRIES), none, LACHSBRILLE_NOTHING_OFFERED);
    STEP_REFUSED(activate(keeping, LACHSBRILLE_NOTHING, 0, kept, Q - 1, LACHSBRILLE_NOTHING, 0), keeping,
                 LACHSBRILLE_SHORT_AREA);
    STEP_REFUSED(activate(session, staging, AREA, kept, AREA, table, ENTRIES), session, LACHSBRILLE_STOPPED_EARLY);
    session.received = Q;
    STEP_REFUSED(activate(session, staging, Q - 1, kept, AREA, table, ENTRIES), session, LACHSBRILLE_SHORT_AREA);
    STEP_REFUSED(activate(session, staging, AREA, kept, Q - 1, table, ENTRIES), session, LACHSBRILLE_SHORT_AREA);
    STEP_REFUSED(deactivate(keeping), keeping, LACHSBRILLE_NOT_ACTIVE);
    left(staging, sizeof staging);
    left(kept, sizeof kept);
    left(table, sizeof table);

    impossible(2, 0, 0, 0, 0);
    impossible(256, 0, 0, 0, 0);
    impossible(65535, 0, 0, 0, 0);
    impossible(0, 2, 0, 0, 1);
    impossible(0, 257, 0, 0, 1);
    impossible(0, 65535, 0, 0, 1);
    impossible(0, 0, LACHSBRILLE_POOL_MOST + 1, 0, 0);
    impossible(0, 0, 0, 0, LACHSBRILLE_POOL_MOST + 1);
    impossible(1, 0, 0, 0, 0);
    impossible(1, 0, 5, 6, 0);
    impossible(0, 1, 0, 0, 0);
    impossible(0, 0, 1, 0, 0);
    impossible(0, 0, 0, 1, 0);
    impossible(1, 0, 65536 + Q, 0, 0);
    impossible(1, 0, Q, 65536, 0);
    impossible(0, 1, 0, 0, 65536 + Q);
}

/* ---- Messages and displayed values ---- */

static void no_message(const uint8_t *bytes, size_t length, uint32_t name)
{
    lachsbrille_message_fields message = lachsbrille_message_read(bytes, length);

    REFUSED(message.number, name);
    EQUAL(message.command, 0);
    EQUAL(message.element, 0);
    EQUAL(message.ddi, 0);
    EQUAL(message.value, 0);
    EQUAL(message.errors, 0);
    EQUAL(message.answered, 0);
}

static void exchange(void)
{
    static const uint8_t others[] = {0, 1, 9, 11, 12, 14, 15};
    uint8_t bytes[9] = {0x23, 0x01, 0x8D, 0, 1, 2, 3, 4, 5}, to[8];
    double result = 9;
    size_t at;

    no_message(bytes, 0, LACHSBRILLE_NOT_EIGHT_BYTES);
    no_message(bytes, 7, LACHSBRILLE_NOT_EIGHT_BYTES);
    no_message(bytes, 9, LACHSBRILLE_NOT_EIGHT_BYTES);
    memset(to, LEFT, sizeof to);
    for (at = 0; at < sizeof others; at++) {
        bytes[0] = (uint8_t)(0x20 | others[at]);
        no_message(bytes, 8, LACHSBRILLE_BAD_COMMAND);
        REFUSED(lachsbrille_message_write_value(to, 8, others[at], 1, 1, 1), LACHSBRILLE_BAD_COMMAND);
    }
    REFUSED(lachsbrille_message_write_value(to, 8, LACHSBRILLE_ACKNOWLEDGE, 1, 1, 1), LACHSBRILLE_BAD_COMMAND);
    REFUSED(lachsbrille_message_write_value(to, 8, 16 + LACHSBRILLE_VALUE, 1, 1, 1), LACHSBRILLE_BAD_COMMAND);
    REFUSED(lachsbrille_message_write_value(to, 8, 256 + LACHSBRILLE_VALUE, 1, 1, 1), LACHSBRILLE_BAD_COMMAND);
    REFUSED(lachsbrille_message_write_value(to, 8, 65536 + LACHSBRILLE_VALUE, 1, 1, 1), LACHSBRILLE_BAD_COMMAND);
    REFUSED(lachsbrille_message_write_value(to, 7, LACHSBRILLE_VALUE, LACHSBRILLE_ELEMENT_MOST + 1, 1, 1),
            LACHSBRILLE_BAD_ELEMENT);
    REFUSED(lachsbrille_message_write_value(to, 8, LACHSBRILLE_VALUE, 65536 + 18, 1, 1), LACHSBRILLE_BAD_ELEMENT);
    REFUSED(lachsbrille_message_write_value(to, 7, LACHSBRILLE_VALUE, LACHSBRILLE_ELEMENT_MOST, 1, 1),
            LACHSBRILLE_NO_ROOM_FOR_MESSAGE);
    REFUSED(lachsbrille_message_write_acknowledge(to, 7, LACHSBRILLE_ELEMENT_MOST + 1, 1, 1, 1), LACHSBRILLE_BAD_ELEMENT);
    REFUSED(lachsbrille_message_write_acknowledge(to, 8, 65536 + 18, 1, 1, 1), LACHSBRILLE_BAD_ELEMENT);
    REFUSED(lachsbrille_message_write_acknowledge(to, 7, 1, 1, 1, 16), LACHSBRILLE_BAD_ELEMENT);
    REFUSED(lachsbrille_message_write_acknowledge(to, 8, 1, 1, 1, 256), LACHSBRILLE_BAD_ELEMENT);
    REFUSED(lachsbrille_message_write_acknowledge(to, 8, 1, 1, 1, 65536 + 3), LACHSBRILLE_BAD_ELEMENT);
    REFUSED(lachsbrille_message_write_acknowledge(to, 7, 1, 1, 1, 15), LACHSBRILLE_NO_ROOM_FOR_MESSAGE);
    left(to, sizeof to);

    REFUSED(lachsbrille_displayed(1, 1, 0.5f, 8, &result), LACHSBRILLE_BAD_PRESENTATION);
    EQUAL(result == 0, 1);
    result = 9;
    REFUSED(lachsbrille_displayed(1, 1, -0.5f, 0, &result), LACHSBRILLE_BAD_PRESENTATION);
    EQUAL(result == 0, 1);
    result = 9;
    REFUSED(lachsbrille_displayed(1, 1, 0.5f, 256, &result), LACHSBRILLE_BAD_PRESENTATION);
    EQUAL(result == 0, 1);
}

/* ---- Time log ---- */

enum {
    LAYOUT = LACHSBRILLE_LAYOUT_NORTH | LACHSBRILLE_LAYOUT_EAST | LACHSBRILLE_LAYOUT_STATUS,
    LOGGED = 7,
    LENGTH = 6 + 9 + 1 + 2 * 5
};

/* A record that is not read, neither by itself nor in a log after a sound record. */
static void log_record_not_read(const uint8_t *sound, const uint8_t *bytes, size_t length, uint32_t name)
{
    uint8_t ordinals[3], log[2 * LENGTH];
    int32_t values[3];
    lachsbrille_log_record record;
    lachsbrille_log_outcome outcome;

    memset(ordinals, LEFT, sizeof ordinals);
    memset(values, LEFT, sizeof values);
    record = read_log_record(bytes, length, LAYOUT, LOGGED, ordinals, 3, values, 3);
    REFUSED(record.number, name);
    EQUAL(record.length, 0);
    EQUAL(record.count, 0);
    EQUAL(record.fields.time, 0);
    EQUAL(record.fields.days, 0);
    EQUAL(record.fields.north, 0);
    EQUAL(record.fields.east, 0);
    EQUAL(record.fields.up, 0);
    EQUAL(record.fields.status, 0);
    EQUAL(record.fields.pdop, 0);
    EQUAL(record.fields.hdop, 0);
    EQUAL(record.fields.satellites, 0);
    EQUAL(record.fields.gps_time, 0);
    EQUAL(record.fields.gps_date, 0);
    left(ordinals, sizeof ordinals);
    left(values, sizeof values);

    memcpy(log, sound, LENGTH);
    memcpy(log + LENGTH, bytes, length);
    outcome = read_log(log, LENGTH + length, LAYOUT, LOGGED);
    REFUSED(outcome.number, name);
    EQUAL(outcome.count, 0);
    EQUAL(outcome.start, LENGTH);
}

/* A record with these fields and ordinals is not written. */
static void log_record_not_written(lachsbrille_log_fields fields, const uint8_t *ordinals, uint32_t name)
{
    static const int32_t values[2] = {-1, 2};
    uint8_t to[LENGTH];
    lachsbrille_log_written written;

    memset(to, LEFT, sizeof to);
    written = lachsbrille_log_write_record(to, LENGTH, LAYOUT, &fields, LOGGED, ordinals, 2, values, 2, 2);
    REFUSED(written.number, name);
    EQUAL(written.length, 0);
    left(to, sizeof to);
}

static void logs(void)
{
    static const uint8_t ordinals[2] = {6, 0}, bad_ordinals[2] = {0, LOGGED};
    static const int32_t values[256] = {-1, 2};
    static const lachsbrille_log_fields sound = {
        .time = 86399999, .days = 65535, .north = -900000000, .east = 1800000000, .status = 15};
    static uint8_t many[256];
    uint8_t bytes[LENGTH], changed[LENGTH], read_ordinals[2];
    int32_t read_values[2];
    lachsbrille_log_fields fields;
    lachsbrille_log_marks marks;
    lachsbrille_log_outcome outcome;
    int cut;

    /* The sound record is written and read, so each change below is what is refused. */
    EQUAL(lachsbrille_log_write_record(bytes, LENGTH, LAYOUT, &sound, LOGGED, ordinals, 2, values, 2, 2).length, LENGTH);
    EQUAL(read_log(bytes, LENGTH, LAYOUT, LOGGED).count, 1);

    for (cut = 1; cut < LENGTH; cut++) {
        log_record_not_read(bytes, bytes, (size_t)cut, LACHSBRILLE_CUT_LOG_RECORD);
    }

    fields = sound;
    fields.time++;
    log_record_not_written(fields, bad_ordinals, LACHSBRILLE_BAD_TIME);
    memcpy(changed, bytes, LENGTH);
    changed[3]++;
    log_record_not_read(bytes, changed, LENGTH, LACHSBRILLE_BAD_TIME);

    fields = sound;
    fields.north--;
    log_record_not_written(fields, bad_ordinals, LACHSBRILLE_BAD_NORTH);
    memcpy(changed, bytes, LENGTH);
    changed[9]--;
    log_record_not_read(bytes, changed, LENGTH, LACHSBRILLE_BAD_NORTH);

    fields = sound;
    fields.east++;
    log_record_not_written(fields, bad_ordinals, LACHSBRILLE_BAD_EAST);
    memcpy(changed, bytes, LENGTH);
    changed[10]++;
    log_record_not_read(bytes, changed, LENGTH, LACHSBRILLE_BAD_EAST);

    fields = sound;
    fields.status = 13;
    log_record_not_written(fields, bad_ordinals, LACHSBRILLE_BAD_STATUS);
    memcpy(changed, bytes, LENGTH);
    changed[14] = 9;
    log_record_not_read(bytes, changed, LENGTH, LACHSBRILLE_BAD_STATUS);

    log_record_not_written(sound, bad_ordinals, LACHSBRILLE_BAD_ORDINAL);
    memcpy(changed, bytes, LENGTH);
    changed[21] = LOGGED;
    log_record_not_read(bytes, changed, LENGTH, LACHSBRILLE_BAD_ORDINAL);

    memset(read_ordinals, LEFT, sizeof read_ordinals);
    memset(read_values, LEFT, sizeof read_values);
    REFUSED(read_log_record(bytes, LENGTH, LAYOUT, LOGGED, read_ordinals, 1, read_values, 2).number,
            LACHSBRILLE_NO_ROOM_FOR_LOG_RECORD);
    REFUSED(read_log_record(bytes, LENGTH, LAYOUT, LOGGED, read_ordinals, 2, read_values, 1).number,
            LACHSBRILLE_NO_ROOM_FOR_LOG_RECORD);
    REFUSED(read_log_record(bytes, LENGTH, LAYOUT | 0x200, LOGGED, read_ordinals, 2, read_values, 2).number,
            LACHSBRILLE_BAD_LAYOUT);
    REFUSED(read_log_record(bytes, LENGTH, LAYOUT | 0x10000, LOGGED, read_ordinals, 2, read_values, 2).number,
            LACHSBRILLE_BAD_LAYOUT);
    left(read_ordinals, sizeof read_ordinals);
    left(read_values, sizeof read_values);

    memset(changed, LEFT, sizeof changed);
    REFUSED(lachsbrille_log_write_record(changed, LENGTH - 1, LAYOUT, &sound, LOGGED, ordinals, 2, values, 2, 2).number,
            LACHSBRILLE_NO_ROOM_FOR_LOG_RECORD);
    REFUSED(lachsbrille_log_write_record(changed, LENGTH, 0x200, &sound, LOGGED, ordinals, 2, values, 2, 2).number,
            LACHSBRILLE_BAD_LAYOUT);
    REFUSED(lachsbrille_log_write_record(changed, LENGTH, LAYOUT | 0x10000, &sound, LOGGED, ordinals, 2, values, 2, 2).number,
            LACHSBRILLE_BAD_LAYOUT);
    REFUSED(lachsbrille_log_write_record(changed, LENGTH, LAYOUT, &sound, LOGGED, ordinals, 1, values, 2, 2).number,
            LACHSBRILLE_MANY_LOG_VALUES);
    REFUSED(lachsbrille_log_write_record(changed, LENGTH, LAYOUT, &sound, LOGGED, ordinals, 2, values, 1, 2).number,
            LACHSBRILLE_MANY_LOG_VALUES);
    REFUSED(lachsbrille_log_write_record(changed, LENGTH, LAYOUT, &sound, LOGGED, many, 256, values, 256, 256).number,
            LACHSBRILLE_MANY_LOG_VALUES);
    left(changed, sizeof changed);

    marks = lachsbrille_log_optional_fields(0x8000);
    REFUSED(marks.number, LACHSBRILLE_BAD_LAYOUT);
    EQUAL(marks.count, 0);
    marks = lachsbrille_log_optional_fields(0x10001);
    REFUSED(marks.number, LACHSBRILLE_BAD_LAYOUT);
    EQUAL(marks.count, 0);
    outcome = read_log(bytes, LENGTH, 0x200, LOGGED);
    REFUSED(outcome.number, LACHSBRILLE_BAD_LAYOUT);
    EQUAL(outcome.start, 0);
    EQUAL(outcome.count, 0);
    REFUSED(read_log(bytes, LENGTH, LAYOUT | 0x10000, LOGGED).number, LACHSBRILLE_BAD_LAYOUT);
}

/* The longest record has the length that the header names. */
static void longest_log_record(void)
{
    static const lachsbrille_log_fields fields = {.time = 0};
    static const uint8_t ordinals[LACHSBRILLE_LOG_VALUES_MOST] = {0};
    static const int32_t values[LACHSBRILLE_LOG_VALUES_MOST] = {0};
    static uint8_t to[LACHSBRILLE_LOG_RECORD_MOST];
    lachsbrille_log_written written =
        lachsbrille_log_write_record(to, sizeof to, LACHSBRILLE_LAYOUT_ALL, &fields, 1, ordinals, sizeof ordinals, values,
                                     LACHSBRILLE_LOG_VALUES_MOST, LACHSBRILLE_LOG_VALUES_MOST);

    EQUAL(written.number, LACHSBRILLE_OK);
    EQUAL(written.length, LACHSBRILLE_LOG_RECORD_MOST);
}

/* Every number was given, and no other; 6 can't be, as shown above. */
static void all_were_given(void)
{
    size_t at, number = 1;

    for (at = 0; at < sizeof numbers; at++) {
        for (; number < numbers[at]; number++) {
            EQUAL(given[number], 0);
        }
        if (number == LACHSBRILLE_MANY_RECORDS) {
            EQUAL(given[number], 0);
        } else if (given[number] == 0) {
            printf("refusal %zu was never given\n", number);
            failures++;
        }
        number++;
    }
    EQUAL(number, sizeof given / sizeof *given);
}

int main(void)
{
    pools();
    sessions();
    exchange();
    logs();
    longest_log_record();
    all_were_given();
    return failures != 0;
}
