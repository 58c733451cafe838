/*
 * A terminal that receives the pool of a sprayer, activates it, looks at its device, exchanges process data, shows a value and
 * writes a log. No heap is used.
 *
 * Build, after ./lachsbrille build --prefix DIR:
 *     cc -std=c99 -IDIR/include examples/terminal.c DIR/lib/liblachsbrille.a -o terminal
 */
#include "lachsbrille.h"

#include <inttypes.h>
#include <stdio.h>
#include <stdlib.h>
#include <string.h>

/* All memory that is lent to calls. A real terminal would take LACHSBRILLE_POOL_MOST bytes and
 * LACHSBRILLE_RECORDS_MOST entries, so that no pool is too long for it. */
enum { AREA = 512, ENTRIES = 16, FAULTS = 8, LOG = 256, VALUES = 8 };

static uint8_t staging[AREA];
static uint8_t kept[AREA];
static lachsbrille_record table[ENTRIES];
static size_t records; /* how many entries of the table the active pool has filled */

/* What the sprayer sends. */
static const uint8_t sprayer[] = {
    /* DVC, ID 0: designator, version, NAME, serial number, structure, localization and extended label */
    'D', 'V', 'C', 0, 0, 7, 'S', 'p', 'r', 'a', 'y', 'e', 'r', 3, '1', '.', '0',
    0x11, 0x22, 0x33, 0x44, 0x55, 0x66, 0x77, 0xA0, 2, '4', '2',
    'B', 'O', 'O', 'M', '2', '4', 'M', 'e', 'n', 0x50, 0x00, 0x55, 0x00, 0xFF, 2, 'X', '1',
    /* DET, ID 1: the device itself, element number 0, under the device, no entry */
    'D', 'E', 'T', 1, 0, 1, 0, 0, 0, 0, 0, 0, 0,
    /* DET, ID 2: a function, element number 1, under element 1, with the entries 3 and 4 */
    'D', 'E', 'T', 2, 0, 2, 4, 'B', 'o', 'o', 'm', 1, 0, 1, 0, 2, 0, 3, 0, 4, 0,
    /* DPD, ID 3: DDI 1, settable, sent by time and on change, shown by presentation 5 */
    'D', 'P', 'D', 3, 0, 1, 0, 0x02, 0x09, 4, 'R', 'a', 't', 'e', 5, 0,
    /* DPT, ID 4: DDI 134, -1500, shown as it is */
    'D', 'P', 'T', 4, 0, 134, 0, 0x24, 0xFA, 0xFF, 0xFF, 6, 'O', 'f', 'f', 's', 'e', 't', 0xFF, 0xFF,
    /* DVP, ID 5: offset 0, scale 0.0001, one decimal */
    'D', 'V', 'P', 5, 0, 0, 0, 0, 0, 0x17, 0xB7, 0xD1, 0x38, 1, 4, 'l', '/', 'h', 'a'
};

/* Where the transfer is stopped: between two records, so that what has arrived looks like a whole pool. */
enum { STOPPED_AFTER = 58 };

/* Ends the program if a call gives another number than the one expected. */
static void expect(const char *call, uint32_t number, uint32_t expected)
{
    if (number != expected) {
        printf("%s gives %" PRIu32 " and not %" PRIu32 "\n", call, number, expected);
        exit(EXIT_FAILURE);
    }
}

/* Sends a part of the pool in pieces as short as those of a transport protocol frame. */
static lachsbrille_session transfer(lachsbrille_session session, size_t from, size_t to)
{
    enum { PIECE = 7 };
    size_t pieces = 0;

    while (from < to) {
        size_t length = to - from < PIECE ? to - from : PIECE;
        lachsbrille_step step;
        lachsbrille_session_transfer(&step, session, sprayer + from, length, staging, sizeof staging);
        expect("transfer", step.number, LACHSBRILLE_OK);
        session = step.session;
        from += length;
        pieces += 1;
    }
    printf("%zu pieces, %" PRIu32 " of %" PRIu32 " bytes received\n", pieces, session.received, session.announced);
    return session;
}

/* Receives the pool and activates it. The session that is returned is active. */
static lachsbrille_session receive(void)
{
    lachsbrille_session session = lachsbrille_session_new();
    lachsbrille_step step;

    lachsbrille_session_offer(&step, session, sizeof sprayer, staging, sizeof staging, kept, sizeof kept);
    expect("offer", step.number, LACHSBRILLE_OK);
    printf("offered: %" PRIu32 " bytes\n", step.session.announced);
    session = transfer(step.session, 0, STOPPED_AFTER);

    /* Not all has arrived. The offer stands, and the rest may follow. */
    lachsbrille_session_activate(&step, session, staging, sizeof staging, kept, sizeof kept, table, ENTRIES);
    expect("activate", step.number, LACHSBRILLE_STOPPED_EARLY);
    printf("activating now is refused with %" PRIu32 "\n", step.number);
    session = transfer(step.session, STOPPED_AFTER, sizeof sprayer);

    lachsbrille_session_activate(&step, session, staging, sizeof staging, kept, sizeof kept, table, ENTRIES);
    expect("activate", step.number, LACHSBRILLE_OK);
    printf("active: %" PRIu32 " bytes are kept\n", step.session.kept);
    return step.session;
}

/* Lists the records with their texts. */
static void show_records(size_t pool_length)
{
    static const char *const marks[] = {"?", "DVC", "DET", "DPD", "DPT", "DVP"};
    uint16_t faults[LACHSBRILLE_FAULT_WORDS * FAULTS];
    size_t count, record;

    for (record = 0; record < records; record++) {
        uint16_t id = table[record].id;
        size_t from, to;
        expect("text", lachsbrille_text(kept, pool_length, table, ENTRIES, id, &from, &to), LACHSBRILLE_OK);
        printf("%s %u at %u length %u \"%.*s\"\n", marks[table[record].kind], (unsigned)id,
               (unsigned)table[record].start, (unsigned)table[record].length, (int)(to - from),
               (const char *)kept + from);
    }

    /* A pool that ends here is read, but has faults: a list of entries names records that are missing. */
    expect("check",
           lachsbrille_check(kept, table[3].start, table, ENTRIES, faults, sizeof faults / sizeof *faults, &count),
           LACHSBRILLE_OK);
    printf("the first three records alone have %zu faults, the first: record %u rule %u item %u, ID %u under parent %u\n", count,
           (unsigned)faults[0], (unsigned)faults[1], (unsigned)faults[2], (unsigned)faults[3], (unsigned)faults[4]);
}

/* ---- The device: the fields of its records, by the table ---- */

/* The table's entry with an ID, NULL for LACHSBRILLE_NO_ID. In an accepted pool every other ID that a record names is found. */
static const lachsbrille_record *find(uint16_t id)
{
    size_t record;

    for (record = 0; record < records && id != LACHSBRILLE_NO_ID; record++) {
        if (table[record].id == id) {
            return &table[record];
        }
    }
    return NULL;
}

/* What an entry of an element's list names: a process data or a property. */
typedef struct {
    uint16_t ddi;
    lachsbrille_span designator;
    uint16_t presentation;
} data_fields;

static data_fields read_data(size_t pool_length, const lachsbrille_record *record)
{
    data_fields fields;

    if (record->kind == LACHSBRILLE_DPD) {
        lachsbrille_process_data data;
        lachsbrille_read_process_data(&data, kept, pool_length, record->start);
        fields.ddi = data.ddi;
        fields.designator = data.designator;
        fields.presentation = data.presentation;
    } else {
        lachsbrille_property property;
        lachsbrille_read_property(&property, kept, pool_length, record->start);
        fields.ddi = property.ddi;
        fields.designator = property.designator;
        fields.presentation = property.presentation;
    }
    return fields;
}

/* Prints a part of the pool. Texts of an accepted pool are UTF-8 and do not end with a 0. */
static void show_text(lachsbrille_span text)
{
    printf("\"%.*s\"", (int)(text.to - text.from), (const char *)kept + text.from);
}

/* The unit text of the presentation that is named, if one is. */
static void show_unit(size_t pool_length, uint16_t presentation)
{
    const lachsbrille_record *record = find(presentation);
    lachsbrille_presentation shown;

    if (record == NULL) {
        printf(", shown as it is");
    } else {
        lachsbrille_read_presentation(&shown, kept, pool_length, record->start);
        printf(", shown in ");
        show_text(shown.unit);
    }
}

/* Walks the device: its elements, and what their lists name. */
static void show_elements(size_t pool_length)
{
    size_t record;
    uint16_t n;

    for (record = 0; record < records; record++) {
        lachsbrille_element element;
        if (table[record].kind != LACHSBRILLE_DET) {
            continue;
        }
        lachsbrille_read_element(&element, kept, pool_length, table[record].start);
        printf("element %u ", (unsigned)element.number);
        show_text(element.designator);
        printf(" of type %u, entries: %u\n", (unsigned)element.type, (unsigned)element.entries);
        for (n = 0; n < element.entries; n++) {
            uint16_t id = lachsbrille_read_entry(kept, pool_length, table[record].start, n);
            data_fields data = read_data(pool_length, find(id));
            printf("    DDI %u ", (unsigned)data.ddi);
            show_text(data.designator);
            show_unit(pool_length, data.presentation);
            printf("\n");
        }
    }
}

/* Shows a value as the pool asks: with the presentation that the process data or property with this ID names. */
static void show_value(size_t pool_length, uint16_t id, int32_t value)
{
    data_fields data = read_data(pool_length, find(id));
    const lachsbrille_record *named = find(data.presentation);

    show_text(data.designator);
    if (named == NULL) {
        printf(" of %" PRId32 " is shown as it is\n", value);
    } else {
        lachsbrille_presentation by;
        float scale;
        double shown;

        lachsbrille_read_presentation(&by, kept, pool_length, named->start);
        memcpy(&scale, &by.scale, sizeof scale);
        expect("displayed value", lachsbrille_displayed(value, by.offset, scale, by.decimals, &shown), LACHSBRILLE_OK);
        printf(" of %" PRId32 " is shown as %.*f ", value, (int)by.decimals, shown);
        show_text(by.unit);
        printf("\n");
    }
}

static void show_label(const char *name, const uint8_t *label, size_t length)
{
    size_t at;

    printf("%s label", name);
    for (at = 0; at < length; at++) {
        printf(" %02X", (unsigned)label[at]);
    }
    printf("\n");
}

static void show_labels(size_t pool_length)
{
    lachsbrille_device_labels labels;

    lachsbrille_labels(&labels, kept, pool_length, table, ENTRIES);
    expect("labels", labels.number, LACHSBRILLE_OK);
    show_label("structure", labels.structure, sizeof labels.structure);
    show_label("localization", labels.localization, sizeof labels.localization);
    show_label("extended", labels.extended, labels.extended_length);
}

static void show_message(const uint8_t *bytes)
{
    lachsbrille_message_fields message = lachsbrille_message_read(bytes, LACHSBRILLE_MESSAGE_LENGTH);

    expect("message read", message.number, LACHSBRILLE_OK);
    if (message.command == LACHSBRILLE_ACKNOWLEDGE) {
        printf("acknowledge: element %u, DDI %u, command %u, errors 0x%02X\n", (unsigned)message.element,
               (unsigned)message.ddi, (unsigned)message.answered, (unsigned)message.errors);
    } else {
        printf("command %u: element %u, DDI %u, value %" PRId32 "\n", (unsigned)message.command,
               (unsigned)message.element, (unsigned)message.ddi, message.value);
    }
}

/* Judges a command by the pool: if the device takes it, it is sent, else it is acknowledged with the error. */
static void send_command(size_t pool_length, uint8_t command, uint16_t element, uint16_t ddi, int32_t value)
{
    uint8_t bytes[LACHSBRILLE_MESSAGE_LENGTH];
    uint8_t error;

    expect("judge", lachsbrille_judge(kept, pool_length, table, ENTRIES, command, element, ddi, value, &error),
           LACHSBRILLE_OK);
    if (error == 0) {
        expect("value message", lachsbrille_message_write_value(bytes, sizeof bytes, command, element, ddi, value),
               LACHSBRILLE_OK);
    } else {
        expect("acknowledge",
               lachsbrille_message_write_acknowledge(bytes, sizeof bytes, element, ddi, error, command),
               LACHSBRILLE_OK);
    }
    show_message(bytes);
}

/* Writes two log records of the rate and reads them back, one by one and as a log. */
static void keep_log(void)
{
    enum { LAYOUT = LACHSBRILLE_LAYOUT_NORTH | LACHSBRILLE_LAYOUT_EAST | LACHSBRILLE_LAYOUT_STATUS, LOGGED = 1 };
    static const uint8_t ordinals[] = {0};
    static uint8_t log[LOG];
    lachsbrille_log_fields fields = {
        .time = 43200000, .days = 16000, .north = 521234567, .east = 104567890, .status = 4};
    lachsbrille_log_marks marks = lachsbrille_log_optional_fields(LAYOUT);
    lachsbrille_log_outcome outcome;
    size_t length = 0, at = 0;
    int32_t rate;

    expect("optional fields", marks.number, LACHSBRILLE_OK);
    printf("the log's layout marks %" PRIu32 " fields\n", marks.count);
    for (rate = 1980000; rate <= 2000000; rate += 20000) {
        lachsbrille_log_written written = lachsbrille_log_write_record(
            log + length, sizeof log - length, LAYOUT, &fields, LOGGED, ordinals, 1, &rate, 1, 1);
        expect("log record written", written.number, LACHSBRILLE_OK);
        length += written.length;
        fields.time += 1000;
    }

    lachsbrille_log_read(&outcome, log, length, LAYOUT, LOGGED);
    expect("log read", outcome.number, LACHSBRILLE_OK);
    printf("the log has %zu records in %zu bytes\n", outcome.count, length);
    while (at < length) {
        uint8_t found[VALUES];
        int32_t values[VALUES];
        lachsbrille_log_record record;
        lachsbrille_log_read_record(&record, log + at, length - at, LAYOUT, LOGGED, found, VALUES, values, VALUES);
        expect("log record read", record.number, LACHSBRILLE_OK);
        printf("at %zu: time %" PRIu32 ", north %" PRId32 ", east %" PRId32 ", status %u, value %u is %" PRId32 "\n",
               at, record.fields.time, record.fields.north, record.fields.east, (unsigned)record.fields.status,
               (unsigned)found[0], values[0]);
        at += record.length;
    }

    lachsbrille_log_read(&outcome, log, length - 1, LAYOUT, LOGGED);
    expect("cut log", outcome.number, LACHSBRILLE_CUT_LOG_RECORD);
    printf("without its last byte it is refused with %" PRIu32 " at %zu\n", outcome.number, outcome.start);
}

int main(void)
{
    lachsbrille_session session;
    lachsbrille_step step;

    expect("version", lachsbrille_version(), LACHSBRILLE_VERSION);
    session = receive();
    expect("read", lachsbrille_read(kept, session.kept, table, ENTRIES, &records), LACHSBRILLE_OK);
    show_records(session.kept);
    show_labels(session.kept);

    /* The table holds the records that the last call with a table read: here all of them again. */
    show_elements(session.kept);
    show_value(session.kept, 3, 2000000);
    send_command(session.kept, LACHSBRILLE_VALUE, 1, 1, 2000000);
    send_command(session.kept, LACHSBRILLE_TIME_INTERVAL, 1, 1, 1000);
    send_command(session.kept, LACHSBRILLE_VALUE, 1, 134, 0);
    send_command(session.kept, LACHSBRILLE_DISTANCE_INTERVAL, 1, 1, 1000);
    send_command(session.kept, LACHSBRILLE_VALUE, 2, 1, 2000000);
    keep_log();

    /* The connection is lost and comes back: the kept pool is activated without being sent again. Neither staging nor the
     * table is needed for that. */
    lachsbrille_session_lost(&step, session);
    expect("lost", step.number, LACHSBRILLE_OK);
    lachsbrille_session_activate(&step, step.session, LACHSBRILLE_NOTHING, 0, kept, sizeof kept, LACHSBRILLE_NOTHING, 0);
    expect("activate", step.number, LACHSBRILLE_OK);
    printf("active again without a transfer\n");
    lachsbrille_session_deactivate(&step, step.session);
    expect("deactivate", step.number, LACHSBRILLE_OK);
    lachsbrille_session_delete(&step, step.session);
    expect("delete", step.number, LACHSBRILLE_OK);
    printf("deleted: %" PRIu32 " bytes are kept\n", step.session.kept);
    return EXIT_SUCCESS;
}
