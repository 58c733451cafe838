/* Every function, with arguments and answers that all differ, so that a swapped, shifted or truncated one is noticed. */
#include "calls.h"
#include "check.h"
#include "lachsbrille.h"
#include "pools.h"

enum { LEFT = 0xA5, LEFT_WORD = 0xA5A5, NO_PARENT = LACHSBRILLE_NO_ID };

static void entry(const lachsbrille_record *given, unsigned start, unsigned length, unsigned kind, unsigned id, unsigned parent)
{
    EQUAL(given->start, start);
    EQUAL(given->length, length);
    EQUAL(given->kind, kind);
    EQUAL(given->id, id);
    EQUAL(given->parent, parent);
}

/* An entry that no call has written. */
static void entry_is_left(const lachsbrille_record *given)
{
    entry(given, LEFT_WORD, LEFT_WORD, LEFT_WORD, LEFT_WORD, LEFT_WORD);
}

static void table_is_of_named(const lachsbrille_record *table)
{
    entry(table, 0, 17, LACHSBRILLE_DVP, 0x0209, NO_PARENT);
    entry(table + 1, 17, 17, LACHSBRILLE_DPT, 0x0107, NO_PARENT);
    entry(table + 2, 34, 39, LACHSBRILLE_DVC, 0, NO_PARENT);
    entry(table + 3, 73, 19, LACHSBRILLE_DET, 0x0403, 0);
    entry(table + 4, 92, 13, LACHSBRILLE_DET, 0x0506, 0x0403);
    entry_is_left(table + 5);
}

/* The fault of Q without its process data. */
static const uint16_t fault_of_q[LACHSBRILLE_FAULT_WORDS] = {3, 6, 2, 2, 1};

/* The faults of `faulty`: of the whole pool, of a kind without a parent, of an element whose parent is missing and of another one. */
enum { FAULTS = 4, FAULTY_WORDS = FAULTS * LACHSBRILLE_FAULT_WORDS };
static const uint16_t faults_of_faulty[FAULTY_WORDS] = {
    0, 10, 1, LACHSBRILLE_NO_ID, LACHSBRILLE_NO_ID,
    2, 4, 1, 0x0107, NO_PARENT,
    3, 6, 1, 0x0403, 0,
    4, 5, 1, 0x0506, 0x0403
};

/* Checks `faulty` with a buffer of so many words. */
static void check_faulty(size_t words)
{
    enum { MORE = LACHSBRILLE_FAULT_WORDS + 1 };
    size_t fitting = words < FAULTY_WORDS ? words / LACHSBRILLE_FAULT_WORDS * LACHSBRILLE_FAULT_WORDS : FAULTY_WORDS;
    lachsbrille_record table[5];
    uint16_t faults[FAULTY_WORDS + MORE];
    size_t value = 9, at;

    EQUAL(words <= FAULTY_WORDS + MORE, 1);
    memset(table, LEFT, sizeof table);
    memset(faults, LEFT, sizeof faults);
    EQUAL(lachsbrille_check(faulty, FAULTY, table, 5, faults, words, &value), LACHSBRILLE_OK);
    EQUAL(value, FAULTS);
    SAME(faults, faults_of_faulty, fitting * sizeof *faults);
    for (at = fitting; at < FAULTY_WORDS + MORE; at++) {
        EQUAL(faults[at], LEFT_WORD);
    }
    entry(table, 0, 17, LACHSBRILLE_DVP, 0x0209, NO_PARENT);
    entry(table + 1, 17, 17, LACHSBRILLE_DPT, 0x0107, NO_PARENT);
    entry(table + 2, 34, 19, LACHSBRILLE_DET, 0x0403, 0);
    entry(table + 3, 53, 13, LACHSBRILLE_DET, 0x0506, 0x0403);
    entry_is_left(table + 4);
}

static void pools(void)
{
    lachsbrille_record table[6];
    lachsbrille_device_labels labels;
    uint16_t faults[8];
    size_t value = 9, from = 9, to = 9, words;
    int at;

    memset(table, LEFT, sizeof table);
    EQUAL(lachsbrille_read(named, NAMED, table, 6, &value), LACHSBRILLE_OK);
    EQUAL(value, 5);
    table_is_of_named(table);

    /* From no room at all to more than all faults need: the buffer ends at and inside every entry. */
    for (words = 0; words <= FAULTY_WORDS + LACHSBRILLE_FAULT_WORDS + 1; words++) {
        check_faulty(words);
    }

    /* A buffer for one and three fifths of a fault. */
    memset(table, LEFT, sizeof table);
    memset(faults, LEFT, sizeof faults);
    EQUAL(lachsbrille_check(q, ELEMENT_END, table, 5, faults, 8, &value), LACHSBRILLE_OK);
    EQUAL(value, 1);
    SAME(faults, fault_of_q, sizeof fault_of_q);
    for (at = LACHSBRILLE_FAULT_WORDS; at < 8; at++) {
        EQUAL(faults[at], LEFT_WORD);
    }
    entry(table, 0, 31, LACHSBRILLE_DVC, 0, NO_PARENT);
    entry(table + 1, 31, 13, LACHSBRILLE_DET, 1, 0);
    entry(table + 2, 44, 15, LACHSBRILLE_DET, 2, 1);
    entry_is_left(table + 3);
    EQUAL(lachsbrille_check(q, Q, table, 4, LACHSBRILLE_NOTHING, 0, &value), LACHSBRILLE_OK);
    EQUAL(value, 0);
    entry(table + 3, 59, 12, LACHSBRILLE_DPD, 3, NO_PARENT);

    memset(table, LEFT, sizeof table);
    EQUAL(lachsbrille_text(named, NAMED, table, 6, 0x0107, &from, &to), LACHSBRILLE_OK);
    EQUAL(from, 29);
    EQUAL(to, 32);
    SAME(named + from, "out", 3);
    table_is_of_named(table);

    memset(table, LEFT, sizeof table);
    labels = labels_of(named, NAMED, table, 6);
    EQUAL(labels.number, LACHSBRILLE_OK);
    SAME(labels.structure, named + 55, 7);
    SAME(labels.localization, named + 62, 7);
    EQUAL(labels.extended_length, 3);
    SAME(labels.extended, named + 70, 3);
    for (at = 3; at < 32; at++) {
        EQUAL(labels.extended[at], 0);
    }
    table_is_of_named(table);

    EQUAL(lachsbrille_text_is_sound((const uint8_t *)"D\xC3\xBCse", 5), true);
    EQUAL(lachsbrille_text_is_sound((const uint8_t *)"D\xC3\xBCse", 2), false);
    EQUAL(lachsbrille_text_is_sound(LACHSBRILLE_NOTHING, 0), true);
}

static void span_is(lachsbrille_span given, size_t from, size_t to)
{
    EQUAL(given.from, from);
    EQUAL(given.to, to);
}

/* Every field of a record of each kind; another pool, start or entry gives other fields. */
static void fields(void)
{
    lachsbrille_device device = read_device(different, DIFFERENT, A_DEVICE);
    lachsbrille_element element = read_element(different, DIFFERENT, AN_ELEMENT);
    lachsbrille_process_data data = read_process_data(different, DIFFERENT, SOME_DATA);
    lachsbrille_property property = read_property(different, DIFFERENT, A_PROPERTY);
    lachsbrille_presentation presentation = read_presentation(different, DIFFERENT, A_PRESENTATION);

    span_is(device.designator, 8, 11);
    span_is(device.version, 12, 14);
    EQUAL(device.name, 0x1817161514131211);
    span_is(device.serial, 23, 24);
    span_is(device.structure, 24, 31);
    span_is(device.localization, 31, 38);
    span_is(device.extended, 39, 43);

    EQUAL(element.type, 5);
    span_is(element.designator, 50, 52);
    EQUAL(element.number, 0x0706);
    EQUAL(element.parent, 0x0908);
    EQUAL(element.entries, 2);
    EQUAL(lachsbrille_read_entry(different, DIFFERENT, AN_ELEMENT, 0), 0x0B0A);
    EQUAL(lachsbrille_read_entry(different, DIFFERENT, AN_ELEMENT, 1), 0x0D0C);
    /* Past the end of its list the next record begins; far past it there are no bytes left. */
    EQUAL(lachsbrille_read_entry(different, DIFFERENT, AN_ELEMENT, 2), 'D' | 'P' << 8);
    EQUAL(lachsbrille_read_entry(different, DIFFERENT, AN_ELEMENT, 65535), 0);

    EQUAL(data.ddi, 0x1910);
    EQUAL(data.properties, 0x1A);
    EQUAL(data.triggers, 0x1B);
    span_is(data.designator, 72, 73);
    EQUAL(data.presentation, 0x1D1C);

    EQUAL(property.ddi, 0x2120);
    EQUAL(property.value, -0x02DBDCDE);
    span_is(property.designator, 87, 87);
    EQUAL(property.presentation, 0x2625);

    EQUAL(presentation.offset, -0x0BD4D5D7);
    EQUAL(presentation.scale, 0x2F2E2D2C);
    EQUAL(presentation.decimals, 0x30);
    span_is(presentation.unit, 104, 107);
}

/* Bytes past the end are 0, whatever lies there. */
static void fields_past_the_end(void)
{
    lachsbrille_device device = read_device(different, A_DEVICE + 14, A_DEVICE);
    lachsbrille_element element = read_element(different, AN_ELEMENT + 10, AN_ELEMENT);
    lachsbrille_process_data data = read_process_data(different, SOME_DATA + 6, SOME_DATA);
    lachsbrille_property property = read_property(different, A_PROPERTY + 8, A_PROPERTY);
    lachsbrille_presentation presentation = read_presentation(LACHSBRILLE_NOTHING, 0, 65535);

    /* Two bytes of the NAME are left. */
    span_is(device.version, 12, 14);
    EQUAL(device.name, 0x1211);
    span_is(device.serial, 23, 23);
    span_is(device.structure, 23, 30);
    span_is(device.localization, 30, 37);
    span_is(device.extended, 38, 38);
    EQUAL(element.type, 5);
    span_is(element.designator, 50, 52);
    EQUAL(element.number, 0x06);
    EQUAL(element.parent, 0);
    EQUAL(element.entries, 0);
    EQUAL(lachsbrille_read_entry(different, AN_ELEMENT + 16, AN_ELEMENT, 0), 0x0A);
    EQUAL(data.ddi, 0x10);
    EQUAL(data.properties, 0);
    EQUAL(data.triggers, 0);
    span_is(data.designator, 72, 72);
    EQUAL(data.presentation, 0);
    EQUAL(property.ddi, 0x2120);
    EQUAL(property.value, 0x22);
    span_is(property.designator, 87, 87);
    EQUAL(property.presentation, 0);
    EQUAL(presentation.offset, 0);
    EQUAL(presentation.scale, 0);
    EQUAL(presentation.decimals, 0);
    span_is(presentation.unit, 65550, 65550);
}

static void session_is(lachsbrille_session given, unsigned stage, unsigned active, unsigned announced,
                       unsigned received, unsigned kept)
{
    EQUAL(given.stage, stage);
    EQUAL(given.active, active);
    EQUAL(given.announced, announced);
    EQUAL(given.received, received);
    EQUAL(given.kept, kept);
}

/* The five numbers of a fault, as a fault buffer has them. */
static void fault_is(lachsbrille_step given, const uint16_t *fault)
{
    EQUAL(given.record, fault[0]);
    EQUAL(given.rule, fault[1]);
    EQUAL(given.item, fault[2]);
    EQUAL(given.id, fault[3]);
    EQUAL(given.parent, fault[4]);
}

static void answer_is_faulty(lachsbrille_step given, const uint16_t *fault)
{
    EQUAL(given.number, LACHSBRILLE_FAULTY);
    EQUAL(given.place, 0);
    fault_is(given, fault);
}

/* An answer without a fault. */
static void answer_is(lachsbrille_step given, unsigned number, unsigned place)
{
    static const uint16_t no_fault[LACHSBRILLE_FAULT_WORDS] = {0, 0, 0, 0, 0};

    EQUAL(given.number, number);
    EQUAL(given.place, place);
    fault_is(given, no_fault);
}

static void sessions(void)
{
    uint8_t staging[90], kept[80];
    lachsbrille_record table[5];
    lachsbrille_session session = lachsbrille_session_new();
    lachsbrille_step step;
    int at;

    session_is(session, LACHSBRILLE_STAGE_NONE, 0, 0, 0, 0);
    memset(staging, LEFT, sizeof staging);
    memset(kept, LEFT, sizeof kept);
    memset(table, LEFT, sizeof table);

    /* An active session whose sizes all differ: the offer's size is neither area's length. */
    session.active = 1;
    session.kept = 60;
    step = offer(session, Q, staging, 90, kept, 80);
    session_is(step.session, LACHSBRILLE_STAGE_OFFERED, 1, Q, 0, 60);
    answer_is(step, LACHSBRILLE_OK, 0);
    EQUAL(offer(session, 81, staging, 90, kept, 80).number, LACHSBRILLE_SHORT_AREA);
    EQUAL(offer(session, 81, staging, 80, kept, 80).number, LACHSBRILLE_SHORT_AREA);

    step = transfer(step.session, q, ELEMENT_END, staging, 90);
    session_is(step.session, LACHSBRILLE_STAGE_OFFERED, 1, Q, ELEMENT_END, 60);
    answer_is(step, LACHSBRILLE_OK, 0);
    SAME(staging, q, ELEMENT_END);
    step = transfer(step.session, q + ELEMENT_END, Q - ELEMENT_END, staging, 90);
    session_is(step.session, LACHSBRILLE_STAGE_OFFERED, 1, Q, Q, 60);
    answer_is(step, LACHSBRILLE_OK, 0);
    SAME(staging, q, Q);
    for (at = Q; at < 90; at++) {
        EQUAL(staging[at], LEFT);
    }

    step = activate(step.session, staging, 90, kept, 80, table, 5);
    session_is(step.session, LACHSBRILLE_STAGE_NONE, 1, 0, 0, Q);
    answer_is(step, LACHSBRILLE_OK, 0);
    SAME(kept, q, Q);
    for (at = Q; at < 80; at++) {
        EQUAL(kept[at], LEFT);
    }
    entry(table + 2, 44, 15, LACHSBRILLE_DET, 2, 1);
    entry(table + 3, 59, 12, LACHSBRILLE_DPD, 3, NO_PARENT);
    entry_is_left(table + 4);

    /* Refused with a fault, and with a place. The kept pool is unchanged. */
    session = offer(step.session, ELEMENT_END, staging, 90, kept, 80).session;
    session = transfer(session, q, ELEMENT_END, staging, 90).session;
    step = activate(session, staging, 90, kept, 80, table, 5);
    session_is(step.session, LACHSBRILLE_STAGE_NONE, 1, 0, 0, Q);
    answer_is_faulty(step, fault_of_q);
    session = offer(step.session, 70, staging, 90, kept, 80).session;
    session = transfer(session, q, 70, staging, 90).session;
    step = activate(session, staging, 90, kept, 80, table, 5);
    session_is(step.session, LACHSBRILLE_STAGE_NONE, 1, 0, 0, Q);
    answer_is(step, LACHSBRILLE_CUT_RECORD, 59);
    SAME(kept, q, Q);

    /* A value that can't arise comes back as it was, field by field. */
    session.stage = 11;
    session.active = 12;
    session.announced = 13;
    session.received = 14;
    session.kept = 15;
    step = lost(session);
    session_is(step.session, 11, 12, 13, 14, 15);
    answer_is(step, LACHSBRILLE_IMPOSSIBLE_SESSION, 0);

    /* Offered, active and with a kept pool: each of the last three calls leaves a different session. */
    session.stage = LACHSBRILLE_STAGE_OFFERED;
    session.active = 1;
    session.received = 10;
    step = deactivate(session);
    session_is(step.session, LACHSBRILLE_STAGE_OFFERED, 0, 13, 10, 15);
    answer_is(step, LACHSBRILLE_OK, 0);
    step = lost(session);
    session_is(step.session, LACHSBRILLE_STAGE_NONE, 0, 0, 0, 15);
    answer_is(step, LACHSBRILLE_OK, 0);
    step = delete_pool(session);
    session_is(step.session, LACHSBRILLE_STAGE_NONE, 0, 0, 0, 0);
    answer_is(step, LACHSBRILLE_OK, 0);
}

/* Sends a pool and has it refused with its first fault. */
static void send_faulty(const uint8_t *pool, size_t length, const uint16_t *fault)
{
    uint8_t staging[NAMED], kept[NAMED];
    lachsbrille_record table[5];
    lachsbrille_session session = lachsbrille_session_new();
    lachsbrille_step step;

    memset(staging, LEFT, sizeof staging);
    memset(kept, LEFT, sizeof kept);
    memset(table, LEFT, sizeof table);
    session = offer(session, length, staging, sizeof staging, kept, sizeof kept).session;
    session = transfer(session, pool, length, staging, sizeof staging).session;
    step = activate(session, staging, sizeof staging, kept, sizeof kept, table, 5);
    session_is(step.session, LACHSBRILLE_STAGE_NONE, 0, 0, 0, 0);
    answer_is_faulty(step, fault);
}

/* First faults of the whole pool, of a kind without a parent and of a device element. */
static void first_faults(void)
{
    static const uint16_t text[LACHSBRILLE_FAULT_WORDS] = {2, 4, 1, 0x0107, NO_PARENT};
    static const uint16_t type[LACHSBRILLE_FAULT_WORDS] = {5, 5, 1, 0x0506, 0x0403};
    uint8_t pool[NAMED];

    send_faulty(faulty, FAULTY, faults_of_faulty);
    memcpy(pool, named, NAMED);
    pool[30] = 0xFF;
    send_faulty(pool, NAMED, text);
    memcpy(pool, named, NAMED);
    pool[97] = 0;
    send_faulty(pool, NAMED, type);
}

static void exchange(void)
{
    static const uint8_t value_bytes[] = {0x33, 0x12, 0x67, 0x45, 0x78, 0x56, 0x34, 0xF2};
    static const uint8_t acknowledge_bytes[] = {0x3D, 0x12, 0x67, 0x45, 0x29, 0xFA, 0xFF, 0xFF};
    lachsbrille_message_fields message;
    lachsbrille_record table[5];
    uint8_t to[10], error = 9;
    double result = 9;

    message = lachsbrille_message_read(value_bytes, 8);
    EQUAL(message.number, LACHSBRILLE_OK);
    EQUAL(message.command, LACHSBRILLE_VALUE);
    EQUAL(message.element, 0x123);
    EQUAL(message.ddi, 0x4567);
    EQUAL(message.value, -0x0DCBA988);
    EQUAL(message.errors, 0);
    EQUAL(message.answered, 0);
    message = lachsbrille_message_read(acknowledge_bytes, 8);
    EQUAL(message.number, LACHSBRILLE_OK);
    EQUAL(message.command, LACHSBRILLE_ACKNOWLEDGE);
    EQUAL(message.element, 0x123);
    EQUAL(message.ddi, 0x4567);
    EQUAL(message.value, 0);
    EQUAL(message.errors, 0x29);
    EQUAL(message.answered, LACHSBRILLE_SET_AND_ACKNOWLEDGE);

    memset(to, LEFT, sizeof to);
    EQUAL(lachsbrille_message_write_value(to, 10, 3, 0x123, 0x4567, -0x0DCBA988), LACHSBRILLE_OK);
    SAME(to, value_bytes, 8);
    EQUAL(to[8], LEFT);
    EQUAL(lachsbrille_message_write_acknowledge(to, 10, 0x123, 0x4567, 0x29, 10), LACHSBRILLE_OK);
    SAME(to, acknowledge_bytes, 8);
    EQUAL(to[9], LEFT);

    /* Each argument decides the answer once. */
    memset(table, LEFT, sizeof table);
    EQUAL(lachsbrille_judge(q, Q, table, 5, 4, 1, 141, 1000, &error), LACHSBRILLE_OK);
    EQUAL(error, 0);
    entry(table + 3, 59, 12, LACHSBRILLE_DPD, 3, NO_PARENT);
    entry_is_left(table + 4);
    EQUAL(lachsbrille_judge(q, Q, table, 5, 4, 1, 141, -1, &error), LACHSBRILLE_OK);
    EQUAL(error, LACHSBRILLE_ERROR_INTERVAL);
    EQUAL(lachsbrille_judge(q, Q, table, 5, 3, 1, 141, 1000, &error), LACHSBRILLE_OK);
    EQUAL(error, LACHSBRILLE_ERROR_SETTABLE);
    EQUAL(lachsbrille_judge(q, Q, table, 5, 5, 1, 141, 1000, &error), LACHSBRILLE_OK);
    EQUAL(error, LACHSBRILLE_ERROR_TRIGGER);
    EQUAL(lachsbrille_judge(q, Q, table, 5, 4, 1, 142, 1000, &error), LACHSBRILLE_OK);
    EQUAL(error, LACHSBRILLE_ERROR_DDI);
    EQUAL(lachsbrille_judge(q, Q, table, 5, 4, 2, 141, 1000, &error), LACHSBRILLE_OK);
    EQUAL(error, LACHSBRILLE_ERROR_ELEMENT);
    EQUAL(lachsbrille_judge(q, Q, table, 5, 255, 2, 142, -1, &error), LACHSBRILLE_OK);
    EQUAL(error, LACHSBRILLE_ERROR_COMMAND);

    /* Value and offset may be swapped: they are added. */
    EQUAL(lachsbrille_displayed(100, -20, 0.5f, 7, &result), LACHSBRILLE_OK);
    EQUAL(result == 40.0, 1);
    EQUAL(lachsbrille_displayed(INT32_MAX, INT32_MAX, 3.0f, 0, &result), LACHSBRILLE_OK);
    EQUAL(result == 12884901882.0, 1);
}

static void logs(void)
{
    enum { LOGGED = 200, LENGTH = 6 + 24 + 1 + 2 * 5 };
    static const uint8_t bytes[2 * LENGTH] = {
        0x01, 0x02, 0x03, 0x04, 0x05, 0x06,                                     /* time, days */
        0x07, 0x08, 0x09, 0x0A, 0x0B, 0x0C, 0x0D, 0xF0, 0x0F, 0x10, 0x11, 0xF2, /* north, east, up */
        0x08, 0x13, 0x14, 0x15, 0x16, 0x17,                                     /* status, PDOP, HDOP, satellites */
        0x18, 0x19, 0x1A, 0x1B, 0x1C, 0x1D,                                     /* GPS time, GPS date */
        2, 150, 0x1E, 0x1F, 0x20, 0xF1, 199, 0x22, 0x23, 0x24, 0x25,            /* two values */
    };
    static const lachsbrille_log_fields fields = {
        .time = 0x04030201, .days = 0x0605, .north = 0x0A090807, .east = -0x0FF2F3F5, .up = -0x0DEEEFF1,
        .status = 8, .pdop = 0x1413, .hdop = 0x1615, .satellites = 0x17, .gps_time = 0x1B1A1918, .gps_date = 0x1D1C};
    static const uint8_t ordinals[3] = {150, 199, 201};
    static const int32_t values[4] = {-0x0EDFE0E2, 0x25242322, 7, 8};
    uint8_t twice[2 * LENGTH], to[LENGTH + 1], read_ordinals[3];
    int32_t read_values[4];
    lachsbrille_log_marks marks;
    lachsbrille_log_written written;
    lachsbrille_log_record record;
    lachsbrille_log_outcome log;

    marks = lachsbrille_log_optional_fields(LACHSBRILLE_LAYOUT_UP | LACHSBRILLE_LAYOUT_HDOP | LACHSBRILLE_LAYOUT_GPS_DATE);
    EQUAL(marks.number, LACHSBRILLE_OK);
    EQUAL(marks.count, 3);

    memset(to, LEFT, sizeof to);
    written = lachsbrille_log_write_record(to, LENGTH + 1, LACHSBRILLE_LAYOUT_ALL, &fields, LOGGED, ordinals, 3, values, 4, 2);
    EQUAL(written.number, LACHSBRILLE_OK);
    EQUAL(written.length, LENGTH);
    SAME(to, bytes, LENGTH);
    EQUAL(to[LENGTH], LEFT);

    memset(read_ordinals, LEFT, sizeof read_ordinals);
    memset(read_values, LEFT, sizeof read_values);
    record = read_log_record(bytes, LENGTH, LACHSBRILLE_LAYOUT_ALL, LOGGED, read_ordinals, 3, read_values, 4);
    EQUAL(record.number, LACHSBRILLE_OK);
    EQUAL(record.length, LENGTH);
    EQUAL(record.count, 2);
    EQUAL(record.fields.time, fields.time);
    EQUAL(record.fields.days, fields.days);
    EQUAL(record.fields.north, fields.north);
    EQUAL(record.fields.east, fields.east);
    EQUAL(record.fields.up, fields.up);
    EQUAL(record.fields.status, fields.status);
    EQUAL(record.fields.pdop, fields.pdop);
    EQUAL(record.fields.hdop, fields.hdop);
    EQUAL(record.fields.satellites, fields.satellites);
    EQUAL(record.fields.gps_time, fields.gps_time);
    EQUAL(record.fields.gps_date, fields.gps_date);
    SAME(read_ordinals, ordinals, 2);
    EQUAL(read_ordinals[2], LEFT);
    SAME(read_values, values, 2 * sizeof *values);
    EQUAL((uint32_t)read_values[2], 0xA5A5A5A5);

    memcpy(twice, bytes, LENGTH);
    memcpy(twice + LENGTH, bytes, LENGTH);
    log = read_log(twice, sizeof twice, LACHSBRILLE_LAYOUT_ALL, LOGGED);
    EQUAL(log.number, LACHSBRILLE_OK);
    EQUAL(log.count, 2);
    EQUAL(log.start, 0);
    twice[LENGTH + 36] = LOGGED;
    log = read_log(twice, sizeof twice, LACHSBRILLE_LAYOUT_ALL, LOGGED);
    EQUAL(log.number, LACHSBRILLE_BAD_ORDINAL);
    EQUAL(log.count, 0);
    EQUAL(log.start, LENGTH);
}

/* Each bit of a layout stands for its field: with that bit alone, only this field is written after time and date. */
static void layout_bits(void)
{
    static const lachsbrille_log_fields fields = {
        .time = 0, .days = 0, .north = 1, .east = 2, .up = 3, .status = 4, .pdop = 5, .hdop = 6, .satellites = 7,
        .gps_time = 8, .gps_date = 9};
    static const struct {
        unsigned bit, width, value;
    } marks[] = {
        {LACHSBRILLE_LAYOUT_NORTH, 4, 1},      {LACHSBRILLE_LAYOUT_EAST, 4, 2},     {LACHSBRILLE_LAYOUT_UP, 4, 3},
        {LACHSBRILLE_LAYOUT_STATUS, 1, 4},     {LACHSBRILLE_LAYOUT_PDOP, 2, 5},     {LACHSBRILLE_LAYOUT_HDOP, 2, 6},
        {LACHSBRILLE_LAYOUT_SATELLITES, 1, 7}, {LACHSBRILLE_LAYOUT_GPS_TIME, 4, 8}, {LACHSBRILLE_LAYOUT_GPS_DATE, 2, 9},
    };
    unsigned all = 0;
    size_t at;

    for (at = 0; at < sizeof marks / sizeof *marks; at++) {
        uint8_t to[11];
        lachsbrille_log_written written =
            lachsbrille_log_write_record(to, sizeof to, marks[at].bit, &fields, 0, LACHSBRILLE_NOTHING, 0, LACHSBRILLE_NOTHING, 0, 0);
        EQUAL(written.number, LACHSBRILLE_OK);
        EQUAL(written.length, 6 + marks[at].width + 1);
        EQUAL(to[6], marks[at].value);
        all |= marks[at].bit;
    }
    EQUAL(all, LACHSBRILLE_LAYOUT_ALL);
}

int main(void)
{
    EQUAL(lachsbrille_version(), LACHSBRILLE_VERSION);
    pools();
    fields();
    fields_past_the_end();
    sessions();
    first_faults();
    exchange();
    logs();
    layout_bits();
    return failures != 0;
}
