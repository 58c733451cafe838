/*
 * Measures the stack of every call, over pools of every length and those that are worst for each internal list, against the figures in
 * the header: one argument for each of its rows, NAME=BYTES. Each call runs on a stack of its own that is filled with a known byte
 * beforehand, and what it has overwritten is counted; then it runs once more on a stack of the bound's size next to an inaccessible page.
 */
#define _DEFAULT_SOURCE
#include "check.h"
#include "lachsbrille.h"
#include "pools.h"

#include <pthread.h>
#include <stdlib.h>
#include <sys/mman.h>

/* No call takes more than BOUND, whatever it is lent. Pools of up to SHORT_POOL bytes with lists of up to SHORT_LIST entries need shorter
 * internal lists, and the stack that they take is printed. */
enum { BOUND = 64 << 10, SHORT_POOL = 12276, SHORT_LIST = 64 };
enum { STACK = 1 << 20, PAGE = 1 << 16, UNUSED = 0xA5, FAULTS = 1024 };
enum { DEVICE = 31, ELEMENT = 13, DATA = 12, LIST_COUNT = 11, LIST = 13, ENTRY = 2 };

static lachsbrille_record table[LACHSBRILLE_RECORDS_MOST];
static size_t table_length = LACHSBRILLE_RECORDS_MOST;
static uint16_t faults[FAULTS * LACHSBRILLE_FAULT_WORDS];
static uint8_t area[LACHSBRILLE_POOL_MOST], other_area[LACHSBRILLE_POOL_MOST];
static uint8_t pool[LACHSBRILLE_POOL_MOST + 1];
static size_t pool_length, longest_list, value, from, to;
static const char *pool_name;
static uint8_t error, message[LACHSBRILLE_MESSAGE_LENGTH], record[LACHSBRILLE_LOG_RECORD_MOST];
static const uint8_t ordinals[LACHSBRILLE_LOG_VALUES_MOST];
static uint8_t read_ordinals[LACHSBRILLE_LOG_VALUES_MOST];
static const int32_t values[LACHSBRILLE_LOG_VALUES_MOST];
static int32_t read_values[LACHSBRILLE_LOG_VALUES_MOST];
static double shown;

/* Results and whatever else a caller would have on its own stack: it does not count as the calls' stack. */
static lachsbrille_device_labels device_labels;
static lachsbrille_step step;
static lachsbrille_device device;
static lachsbrille_element element;
static lachsbrille_process_data data;
static lachsbrille_property property;
static lachsbrille_presentation presentation;
static const lachsbrille_log_fields fields;
static lachsbrille_log_record log_record;
static lachsbrille_log_outcome log_outcome;

/* ---- the calls */

static void nothing(void)
{
}

static void read_pool(void)
{
    (void)lachsbrille_read(pool, pool_length, table, table_length, &value);
}

static void check_pool(void)
{
    (void)lachsbrille_check(pool, pool_length, table, table_length, faults, sizeof faults / sizeof *faults, &value);
}

static void text(void)
{
    (void)lachsbrille_text(pool, pool_length, table, table_length, 0, &from, &to);
    (void)lachsbrille_text(pool, pool_length, table, table_length, 65535, &from, &to);
}

static void labels(void)
{
    lachsbrille_labels(&device_labels, pool, pool_length, table, table_length);
}

static void judge(void)
{
    (void)lachsbrille_judge(pool, pool_length, table, table_length, 4, 1, 141, 0, &error);
    (void)lachsbrille_judge(pool, pool_length, table, table_length, 4, 0, 65535, 0, &error);
}

static void activate(void)
{
    lachsbrille_session session = {
        .announced = (uint32_t)pool_length, .received = (uint32_t)pool_length, .stage = LACHSBRILLE_STAGE_OFFERED};
    lachsbrille_session_activate(&step, session, pool, sizeof area, area, sizeof area, table, table_length);
}

/* The functions without a table, one after the other. */
static void others(void)
{
    (void)lachsbrille_version();
    (void)lachsbrille_text_is_sound(pool, pool_length);
    lachsbrille_read_device(&device, pool, pool_length, 0);
    lachsbrille_read_element(&element, pool, pool_length, 0);
    (void)lachsbrille_read_entry(pool, pool_length, 0, 0);
    lachsbrille_read_process_data(&data, pool, pool_length, 0);
    lachsbrille_read_property(&property, pool, pool_length, 0);
    lachsbrille_read_presentation(&presentation, pool, pool_length, 0);
    lachsbrille_session_offer(&step, lachsbrille_session_new(), Q, area, Q, other_area, Q);
    lachsbrille_session_transfer(&step, step.session, q, Q, area, Q);
    lachsbrille_session_deactivate(&step, step.session);
    lachsbrille_session_lost(&step, step.session);
    lachsbrille_session_delete(&step, step.session);
    (void)lachsbrille_message_write_value(message, sizeof message, 3, 1, 1, 1);
    (void)lachsbrille_message_write_acknowledge(message, sizeof message, 1, 1, 1, 1);
    (void)lachsbrille_message_read(message, sizeof message);
    (void)lachsbrille_displayed(1, 1, 1.0f, 0, &shown);
    (void)lachsbrille_log_optional_fields(LACHSBRILLE_LAYOUT_ALL);
    (void)lachsbrille_log_write_record(record, sizeof record, LACHSBRILLE_LAYOUT_ALL, &fields, 1, ordinals, sizeof ordinals,
                                       values, sizeof ordinals, sizeof ordinals);
    lachsbrille_log_read_record(&log_record, record, sizeof record, LACHSBRILLE_LAYOUT_ALL, 1, read_ordinals,
                                sizeof read_ordinals, read_values, sizeof read_ordinals);
    lachsbrille_log_read(&log_outcome, record, sizeof record, LACHSBRILLE_LAYOUT_ALL, 1);
}

/* The calls by the names of the header's rows, with its figures and the most that was measured. */
static struct {
    const char *name;
    void (*run)(void);
    size_t figure, short_most, most;
} calls[] = {
    {"read", read_pool, 0, 0, 0},     {"check", check_pool, 0, 0, 0},
    {"text", text, 0, 0, 0},          {"labels", labels, 0, 0, 0},
    {"judge", judge, 0, 0, 0},        {"session_activate", activate, 0, 0, 0},
    {"the others", others, 0, 0, 0}
};
enum { CALLS = sizeof calls / sizeof *calls };

/* ---- running */

static void *enter(void *run)
{
    (*(void (**)(void))run)();
    return NULL;
}

static void give_up(const char *what)
{
    printf("%s\n", what);
    exit(EXIT_FAILURE);
}

/* Memory for a stack, after an inaccessible page. */
static unsigned char *new_stack(size_t size)
{
    unsigned char *memory =
        (unsigned char *)mmap(NULL, PAGE + size, PROT_READ | PROT_WRITE, MAP_PRIVATE | MAP_ANONYMOUS, -1, 0);

    if (memory == MAP_FAILED || mprotect(memory, PAGE, PROT_NONE) != 0) {
        give_up("no memory for a stack");
    }
    return memory + PAGE;
}

/* The page is counted as part of the stack, as some machines demand more than the bound for a thread's stack. */
static void run_on(unsigned char *stack, size_t size, void (*run)(void))
{
    pthread_attr_t attributes;
    pthread_t thread;

    if (pthread_attr_init(&attributes) != 0 || pthread_attr_setstack(&attributes, stack - PAGE, PAGE + size) != 0 ||
        pthread_create(&thread, &attributes, enter, &run) != 0 || pthread_join(thread, NULL) != 0) {
        give_up("no thread");
    }
    (void)pthread_attr_destroy(&attributes);
}

/* How much of its stack a thread that makes these calls overwrites. */
static size_t overwritten(void (*run)(void))
{
    static unsigned char *stack;
    size_t unused = 0;

    if (stack == NULL) {
        stack = new_stack(STACK);
    }
    memset(stack, UNUSED, STACK);
    run_on(stack, STACK, run);
    while (unused < STACK && stack[unused] == UNUSED) {
        unused++;
    }
    return STACK - unused;
}

static void measure(void)
{
    static unsigned char *tight;
    bool is_short = pool_length <= SHORT_POOL && longest_list <= SHORT_LIST;
    size_t at, bytes;

    if (tight == NULL) {
        tight = new_stack(BOUND);
    }
    for (at = 0; at < CALLS; at++) {
        bytes = overwritten(calls[at].run) - overwritten(nothing);
        if (bytes > calls[at].figure) {
            printf("%s, %s of %zu bytes: %zu bytes of stack, and the header says %zu\n", calls[at].name, pool_name, pool_length,
                   bytes, calls[at].figure);
            failures++;
        }
        if (is_short && bytes > calls[at].short_most) {
            calls[at].short_most = bytes;
        }
        if (bytes > calls[at].most) {
            calls[at].most = bytes;
        }
        run_on(tight, BOUND, calls[at].run);
    }
}

/* ---- pools */

static void put_number(size_t at, size_t number)
{
    pool[at] = (uint8_t)(number & 0xFF);
    pool[at + 1] = (uint8_t)(number >> 8);
}

/* A device and nothing else. */
static void begin(const char *name)
{
    pool_name = name;
    memcpy(pool, q, DEVICE);
    pool_length = DEVICE;
    longest_list = 0;
}

/* The first element of a pool is the device itself (type 1), the others are functions (type 2). */
static void add_element(size_t id, size_t number, size_t parent)
{
    memcpy(pool + pool_length, q + DEVICE, ELEMENT);
    put_number(pool_length + 3, id);
    pool[pool_length + 5] = pool_length == DEVICE ? 1 : 2;
    put_number(pool_length + 7, number);
    put_number(pool_length + 9, parent);
    pool_length += ELEMENT;
}

/* A list for the element that was added last: it names `count` IDs from `first` on, and then `first` once more if `again`. */
static void add_list(size_t first, size_t count, bool again)
{
    size_t entries = count + (again ? 1 : 0), start = pool_length - LIST, at;

    put_number(start + LIST_COUNT, entries);
    for (at = 0; at < entries; at++, pool_length += ENTRY) {
        put_number(pool_length, first + at % count);
    }
    if (entries > longest_list) {
        longest_list = entries;
    }
}

/* Process data with different DDIs and with IDs from `id` on, as long as the pool has no more than `bytes` bytes. */
static void add_data(size_t id, size_t bytes)
{
    for (; pool_length + DATA <= bytes; pool_length += DATA, id++) {
        memcpy(pool + pool_length, q + ELEMENT_END, DATA);
        put_number(pool_length + 3, id);
        put_number(pool_length + 5, id);
    }
}

/* What is worst for each internal list, in all combinations. IDs from 10 on are those of process data. */
enum { LISTED = 1, REPEATED = 2, NUMBERED = 4, CIRCLING = 8, ALL_WORST = 16 };

static void measure_worst(size_t bytes, size_t list)
{
    static const char *const names[] = {"a sound pool", "a pool with a long list", NULL, "a pool with a DDI twice in a long list",
                                        "a pool with a high element number"};
    int worst;

    for (worst = 0; worst < ALL_WORST; worst++) {
        begin(worst < 5 && names[worst] != NULL ? names[worst] : "a pool with several of the worst");
        add_element(1, 0, 0);
        if ((worst & (LISTED | REPEATED)) != 0) {
            add_list(10, list, (worst & REPEATED) != 0);
        }
        if ((worst & NUMBERED) != 0) {
            add_element(2, 4096, 1);
            add_element(3, 65535, 1);
        }
        if ((worst & CIRCLING) != 0) {
            add_element(4, 3, 5);
            add_element(5, 4, 4);
        }
        add_data(10, bytes);
        measure();
    }
}

static void measure_all(void)
{
    /* Q as it is, without its process data, and cut; and an empty pool. */
    static const struct { const char *name; size_t length; } parts[] = {
        {"Q", Q}, {"Q without its process data", ELEMENT_END}, {"Q cut", Q - 1}, {"no byte", 0}
    };
    size_t at;

    for (at = 0; at < sizeof parts / sizeof *parts; at++) {
        begin(parts[at].name);
        memcpy(pool, q, Q);
        pool_length = parts[at].length;
        measure();
    }
    measure_worst(1 << 10, 16);
    measure_worst(SHORT_POOL, SHORT_LIST - 1);
    measure_worst(SHORT_POOL, SHORT_LIST + 1);
    measure_worst(SHORT_POOL + DATA, SHORT_LIST - 1);
    measure_worst(LACHSBRILLE_POOL_MOST, SHORT_LIST - 1);
    measure_worst(LACHSBRILLE_POOL_MOST, 4600);

    begin("a pool for whose records the table is too short");
    add_data(10, LACHSBRILLE_POOL_MOST);
    table_length = 1;
    measure();
    table_length = LACHSBRILLE_RECORDS_MOST;

    begin("a pool of devices, with most faults");
    for (; pool_length + DEVICE <= LACHSBRILLE_POOL_MOST; pool_length += DEVICE) {
        memcpy(pool + pool_length, q, DEVICE);
        memset(pool + pool_length + 16, 0xFF, 14);
    }
    measure();

    begin("a list of entries that name nothing");
    add_element(1, 0, 0);
    add_list(10, 32000, false);
    measure();

    begin("a pool that is too long");
    add_data(10, LACHSBRILLE_POOL_MOST);
    pool_length = LACHSBRILLE_POOL_MOST + 1;
    measure();
}

/* ---- the header's figures */

static void take_figure(const char *argument)
{
    const char *sign = strchr(argument, '=');
    size_t at;

    for (at = 0; sign != NULL && at < CALLS; at++) {
        if (strlen(calls[at].name) == (size_t)(sign - argument) && strncmp(calls[at].name, argument, sign - argument) == 0) {
            calls[at].figure = strtoul(sign + 1, NULL, 10);
            return;
        }
    }
    printf("the header has a row for no call: %s\n", argument);
    failures++;
}

int main(int count, char **arguments)
{
    int at;

    for (at = 1; at < count; at++) {
        take_figure(arguments[at]);
    }
    measure_all();
    for (at = 0; at < CALLS; at++) {
        if (calls[at].figure > BOUND) {
            printf("%s: the header says more than %d bytes\n", calls[at].name, BOUND);
            failures++;
        }
        printf("stack of %s: %zu bytes for short pools, %zu for any\n", calls[at].name, calls[at].short_most, calls[at].most);
    }
    return failures != 0;
}
