/*
 * Stands between a C program and the library (ld --wrap): each slice, lent number and result is copied into memory of exactly its
 * size, lent from there and copied back. What must not be written is compared; what lies around is watched. LENT says how:
 *
 *   canaries   between known bytes, which are compared after the call (the default)
 *   end        right before an inaccessible page: a byte read or written after it ends the program
 *   start      right after an inaccessible page: likewise for a byte before it
 *   heap       in blocks of their own, for the address sanitizer
 *
 * The sanitizer sees what the C program does, and the library's calls of memcpy and memset; the library's other accesses are not
 * instrumented. The pages catch those too.
 */
#define _DEFAULT_SOURCE
#include "lachsbrille.h"

#include <stdio.h>
#include <stdlib.h>
#include <string.h>
#include <sys/mman.h>
#include <unistd.h>

enum { LOANS = 6, CANARY = 64, ROOM = 1 << 20, CANARY_BYTE = 0xC7 };

typedef struct {
    const void *own;
    void *to_own; /* null where the call must not write */
    unsigned char *base, *lent;
    size_t base_size, size;
} loan;

static loan loans[LOANS];
static size_t lent_now;

static void fail(const char *what)
{
    printf("lent memory: %s\n", what);
    fflush(stdout);
    abort();
}

static const char *manner(void)
{
    const char *wanted = getenv("LENT");
    return wanted == NULL ? "canaries" : wanted;
}

/* Memory for a loan between canaries, aligned for items of any type. */
static unsigned char *canary_room(size_t number)
{
    static union {
        long double alignment;
        unsigned char bytes[LOANS][ROOM];
    } rooms;
    return rooms.bytes[number];
}

static void place(loan *it)
{
    if (strcmp(manner(), "canaries") == 0) {
        it->base_size = it->size + 2 * CANARY;
        if (it->base_size > ROOM) {
            fail("too much at once");
        }
        it->base = canary_room((size_t)(it - loans));
        it->lent = it->base + CANARY;
        memset(it->base, CANARY_BYTE, it->base_size);
    } else if (strcmp(manner(), "heap") == 0) {
        /* For an empty slice the end of a block is lent: an aligned pointer to memory that must not be accessed. */
        it->base_size = it->size == 0 ? 16 : it->size;
        it->base = (unsigned char *)malloc(it->base_size);
        if (it->base == NULL) {
            fail("there is no more");
        }
        it->lent = it->base + (it->base_size - it->size);
    } else if (strcmp(manner(), "end") == 0 || strcmp(manner(), "start") == 0) {
        size_t page = (size_t)sysconf(_SC_PAGESIZE);
        size_t inner = (it->size + page - 1) / page * page;
        it->base_size = inner + 2 * page;
        it->base = (unsigned char *)mmap(NULL, it->base_size, PROT_NONE, MAP_PRIVATE | MAP_ANONYMOUS, -1, 0);
        if (it->base == MAP_FAILED || (inner != 0 && mprotect(it->base + page, inner, PROT_READ | PROT_WRITE) != 0)) {
            fail("there are no pages");
        }
        it->lent = it->base + page + (manner()[0] == 'e' ? inner - it->size : 0);
    } else {
        fail("LENT is none of canaries, end, start, heap");
    }
}

static void release(loan *it)
{
    size_t at;

    if (strcmp(manner(), "canaries") == 0) {
        for (at = 0; at < CANARY; at++) {
            if (it->base[at] != CANARY_BYTE) {
                fail("a byte before it was written");
            }
            if (it->lent[it->size + at] != CANARY_BYTE) {
                fail("a byte behind it was written");
            }
        }
    } else if (strcmp(manner(), "heap") == 0) {
        free(it->base);
    } else {
        munmap(it->base, it->base_size);
    }
}

static void *lend(const void *own, void *to_own, size_t items, size_t item)
{
    loan *it;

    /* For an empty slice this pointer is lent as it is: no memory may be accessed through it. */
    if (items == 0 && own == LACHSBRILLE_NOTHING) {
        return LACHSBRILLE_NOTHING;
    }
    if (lent_now == LOANS) {
        fail("too many at once");
    }
    it = &loans[lent_now++];
    it->own = own;
    it->to_own = to_own;
    it->size = items * item;
    place(it);
    memcpy(it->lent, own, it->size);
    return it->lent;
}

static void take_back(void)
{
    while (lent_now > 0) {
        loan *it = &loans[--lent_now];
        if (it->to_own != NULL) {
            memcpy(it->to_own, it->lent, it->size);
        } else if (memcmp(it->own, it->lent, it->size) != 0) {
            fail("what was lent to be read was written");
        }
        release(it);
    }
}

#define READ(type, own, length) ((const type *)lend(own, NULL, length, sizeof *(own)))
#define WRITE(type, own, length) ((type *)lend(own, own, length, sizeof *(own)))

/* Makes the call with what was lent, takes everything back and returns the call's answer. */
#define PASS(type, call)        \
    do {                        \
        type answer_ = call;    \
        take_back();            \
        return answer_;         \
    } while (0)

uint32_t __real_lachsbrille_read(const uint8_t *, size_t, lachsbrille_record *, size_t, size_t *);
uint32_t __wrap_lachsbrille_read(const uint8_t *pool, size_t pool_length, lachsbrille_record *table, size_t table_length,
                                 size_t *value)
{
    const uint8_t *lent_pool = READ(uint8_t, pool, pool_length);
    lachsbrille_record *lent_table = WRITE(lachsbrille_record, table, table_length);
    size_t *lent_value = WRITE(size_t, value, 1);
    PASS(uint32_t, __real_lachsbrille_read(lent_pool, pool_length, lent_table, table_length, lent_value));
}

uint32_t __real_lachsbrille_check(const uint8_t *, size_t, lachsbrille_record *, size_t, uint16_t *, size_t, size_t *);
uint32_t __wrap_lachsbrille_check(const uint8_t *pool, size_t pool_length, lachsbrille_record *table, size_t table_length,
                                  uint16_t *faults, size_t faults_length, size_t *value)
{
    const uint8_t *lent_pool = READ(uint8_t, pool, pool_length);
    lachsbrille_record *lent_table = WRITE(lachsbrille_record, table, table_length);
    uint16_t *lent_faults = WRITE(uint16_t, faults, faults_length);
    size_t *lent_value = WRITE(size_t, value, 1);
    PASS(uint32_t, __real_lachsbrille_check(lent_pool, pool_length, lent_table, table_length, lent_faults, faults_length,
                                            lent_value));
}

bool __real_lachsbrille_text_is_sound(const uint8_t *, size_t);
bool __wrap_lachsbrille_text_is_sound(const uint8_t *text, size_t text_length)
{
    const uint8_t *lent_text = READ(uint8_t, text, text_length);
    PASS(bool, __real_lachsbrille_text_is_sound(lent_text, text_length));
}

uint32_t __real_lachsbrille_text(const uint8_t *, size_t, lachsbrille_record *, size_t, uint32_t, size_t *, size_t *);
uint32_t __wrap_lachsbrille_text(const uint8_t *pool, size_t pool_length, lachsbrille_record *table, size_t table_length,
                                 uint32_t id, size_t *from, size_t *to)
{
    const uint8_t *lent_pool = READ(uint8_t, pool, pool_length);
    lachsbrille_record *lent_table = WRITE(lachsbrille_record, table, table_length);
    size_t *lent_from = WRITE(size_t, from, 1);
    size_t *lent_to = WRITE(size_t, to, 1);
    PASS(uint32_t, __real_lachsbrille_text(lent_pool, pool_length, lent_table, table_length, id, lent_from, lent_to));
}

void __real_lachsbrille_labels(lachsbrille_device_labels *, const uint8_t *, size_t, lachsbrille_record *, size_t);
void __wrap_lachsbrille_labels(lachsbrille_device_labels *out, const uint8_t *pool, size_t pool_length, lachsbrille_record *table,
                               size_t table_length)
{
    lachsbrille_device_labels *lent_out = WRITE(lachsbrille_device_labels, out, 1);
    const uint8_t *lent_pool = READ(uint8_t, pool, pool_length);
    lachsbrille_record *lent_table = WRITE(lachsbrille_record, table, table_length);
    __real_lachsbrille_labels(lent_out, lent_pool, pool_length, lent_table, table_length);
    take_back();
}

void __real_lachsbrille_read_device(lachsbrille_device *, const uint8_t *, size_t, uint16_t);
void __wrap_lachsbrille_read_device(lachsbrille_device *out, const uint8_t *pool, size_t pool_length, uint16_t start)
{
    lachsbrille_device *lent_out = WRITE(lachsbrille_device, out, 1);
    const uint8_t *lent_pool = READ(uint8_t, pool, pool_length);
    __real_lachsbrille_read_device(lent_out, lent_pool, pool_length, start);
    take_back();
}

void __real_lachsbrille_read_element(lachsbrille_element *, const uint8_t *, size_t, uint16_t);
void __wrap_lachsbrille_read_element(lachsbrille_element *out, const uint8_t *pool, size_t pool_length, uint16_t start)
{
    lachsbrille_element *lent_out = WRITE(lachsbrille_element, out, 1);
    const uint8_t *lent_pool = READ(uint8_t, pool, pool_length);
    __real_lachsbrille_read_element(lent_out, lent_pool, pool_length, start);
    take_back();
}

uint16_t __real_lachsbrille_read_entry(const uint8_t *, size_t, uint16_t, uint16_t);
uint16_t __wrap_lachsbrille_read_entry(const uint8_t *pool, size_t pool_length, uint16_t start, uint16_t n)
{
    const uint8_t *lent_pool = READ(uint8_t, pool, pool_length);
    PASS(uint16_t, __real_lachsbrille_read_entry(lent_pool, pool_length, start, n));
}

void __real_lachsbrille_read_process_data(lachsbrille_process_data *, const uint8_t *, size_t, uint16_t);
void __wrap_lachsbrille_read_process_data(lachsbrille_process_data *out, const uint8_t *pool, size_t pool_length, uint16_t start)
{
    lachsbrille_process_data *lent_out = WRITE(lachsbrille_process_data, out, 1);
    const uint8_t *lent_pool = READ(uint8_t, pool, pool_length);
    __real_lachsbrille_read_process_data(lent_out, lent_pool, pool_length, start);
    take_back();
}

void __real_lachsbrille_read_property(lachsbrille_property *, const uint8_t *, size_t, uint16_t);
void __wrap_lachsbrille_read_property(lachsbrille_property *out, const uint8_t *pool, size_t pool_length, uint16_t start)
{
    lachsbrille_property *lent_out = WRITE(lachsbrille_property, out, 1);
    const uint8_t *lent_pool = READ(uint8_t, pool, pool_length);
    __real_lachsbrille_read_property(lent_out, lent_pool, pool_length, start);
    take_back();
}

void __real_lachsbrille_read_presentation(lachsbrille_presentation *, const uint8_t *, size_t, uint16_t);
void __wrap_lachsbrille_read_presentation(lachsbrille_presentation *out, const uint8_t *pool, size_t pool_length, uint16_t start)
{
    lachsbrille_presentation *lent_out = WRITE(lachsbrille_presentation, out, 1);
    const uint8_t *lent_pool = READ(uint8_t, pool, pool_length);
    __real_lachsbrille_read_presentation(lent_out, lent_pool, pool_length, start);
    take_back();
}

void __real_lachsbrille_session_offer(lachsbrille_step *, lachsbrille_session, size_t, const uint8_t *, size_t, const uint8_t *,
                                      size_t);
void __wrap_lachsbrille_session_offer(lachsbrille_step *out, lachsbrille_session session, size_t size, const uint8_t *staging,
                                      size_t staging_length, const uint8_t *kept, size_t kept_length)
{
    lachsbrille_step *lent_out = WRITE(lachsbrille_step, out, 1);
    const uint8_t *lent_staging = READ(uint8_t, staging, staging_length);
    const uint8_t *lent_kept = READ(uint8_t, kept, kept_length);
    __real_lachsbrille_session_offer(lent_out, session, size, lent_staging, staging_length, lent_kept, kept_length);
    take_back();
}

void __real_lachsbrille_session_transfer(lachsbrille_step *, lachsbrille_session, const uint8_t *, size_t, uint8_t *, size_t);
void __wrap_lachsbrille_session_transfer(lachsbrille_step *out, lachsbrille_session session, const uint8_t *piece,
                                         size_t piece_length, uint8_t *staging, size_t staging_length)
{
    lachsbrille_step *lent_out = WRITE(lachsbrille_step, out, 1);
    const uint8_t *lent_piece = READ(uint8_t, piece, piece_length);
    uint8_t *lent_staging = WRITE(uint8_t, staging, staging_length);
    __real_lachsbrille_session_transfer(lent_out, session, lent_piece, piece_length, lent_staging, staging_length);
    take_back();
}

void __real_lachsbrille_session_activate(lachsbrille_step *, lachsbrille_session, const uint8_t *, size_t, uint8_t *, size_t,
                                         lachsbrille_record *, size_t);
void __wrap_lachsbrille_session_activate(lachsbrille_step *out, lachsbrille_session session, const uint8_t *staging,
                                         size_t staging_length, uint8_t *kept, size_t kept_length, lachsbrille_record *table,
                                         size_t table_length)
{
    lachsbrille_step *lent_out = WRITE(lachsbrille_step, out, 1);
    const uint8_t *lent_staging = READ(uint8_t, staging, staging_length);
    uint8_t *lent_kept = WRITE(uint8_t, kept, kept_length);
    lachsbrille_record *lent_table = WRITE(lachsbrille_record, table, table_length);
    __real_lachsbrille_session_activate(lent_out, session, lent_staging, staging_length, lent_kept, kept_length, lent_table,
                                        table_length);
    take_back();
}

void __real_lachsbrille_session_deactivate(lachsbrille_step *, lachsbrille_session);
void __wrap_lachsbrille_session_deactivate(lachsbrille_step *out, lachsbrille_session session)
{
    lachsbrille_step *lent_out = WRITE(lachsbrille_step, out, 1);
    __real_lachsbrille_session_deactivate(lent_out, session);
    take_back();
}

void __real_lachsbrille_session_delete(lachsbrille_step *, lachsbrille_session);
void __wrap_lachsbrille_session_delete(lachsbrille_step *out, lachsbrille_session session)
{
    lachsbrille_step *lent_out = WRITE(lachsbrille_step, out, 1);
    __real_lachsbrille_session_delete(lent_out, session);
    take_back();
}

void __real_lachsbrille_session_lost(lachsbrille_step *, lachsbrille_session);
void __wrap_lachsbrille_session_lost(lachsbrille_step *out, lachsbrille_session session)
{
    lachsbrille_step *lent_out = WRITE(lachsbrille_step, out, 1);
    __real_lachsbrille_session_lost(lent_out, session);
    take_back();
}

lachsbrille_message_fields __real_lachsbrille_message_read(const uint8_t *, size_t);
lachsbrille_message_fields __wrap_lachsbrille_message_read(const uint8_t *bytes, size_t bytes_length)
{
    const uint8_t *lent_bytes = READ(uint8_t, bytes, bytes_length);
    PASS(lachsbrille_message_fields, __real_lachsbrille_message_read(lent_bytes, bytes_length));
}

uint32_t __real_lachsbrille_message_write_value(uint8_t *, size_t, uint32_t, uint32_t, uint16_t, int32_t);
uint32_t __wrap_lachsbrille_message_write_value(uint8_t *to, size_t to_length, uint32_t command, uint32_t element, uint16_t ddi,
                                                int32_t value)
{
    uint8_t *lent_to = WRITE(uint8_t, to, to_length);
    PASS(uint32_t, __real_lachsbrille_message_write_value(lent_to, to_length, command, element, ddi, value));
}

uint32_t __real_lachsbrille_message_write_acknowledge(uint8_t *, size_t, uint32_t, uint16_t, uint8_t, uint32_t);
uint32_t __wrap_lachsbrille_message_write_acknowledge(uint8_t *to, size_t to_length, uint32_t element, uint16_t ddi, uint8_t errors,
                                                      uint32_t answered)
{
    uint8_t *lent_to = WRITE(uint8_t, to, to_length);
    PASS(uint32_t, __real_lachsbrille_message_write_acknowledge(lent_to, to_length, element, ddi, errors, answered));
}

uint32_t __real_lachsbrille_judge(const uint8_t *, size_t, lachsbrille_record *, size_t, uint32_t, uint32_t, uint16_t, int32_t,
                                  uint8_t *);
uint32_t __wrap_lachsbrille_judge(const uint8_t *pool, size_t pool_length, lachsbrille_record *table, size_t table_length,
                                  uint32_t command, uint32_t element, uint16_t ddi, int32_t value, uint8_t *error)
{
    const uint8_t *lent_pool = READ(uint8_t, pool, pool_length);
    lachsbrille_record *lent_table = WRITE(lachsbrille_record, table, table_length);
    uint8_t *lent_error = WRITE(uint8_t, error, 1);
    PASS(uint32_t, __real_lachsbrille_judge(lent_pool, pool_length, lent_table, table_length, command, element, ddi, value,
                                            lent_error));
}

uint32_t __real_lachsbrille_displayed(int32_t, int32_t, float, uint32_t, double *);
uint32_t __wrap_lachsbrille_displayed(int32_t value, int32_t offset, float scale, uint32_t decimals, double *result)
{
    double *lent_result = WRITE(double, result, 1);
    PASS(uint32_t, __real_lachsbrille_displayed(value, offset, scale, decimals, lent_result));
}

void __real_lachsbrille_log_read_record(lachsbrille_log_record *, const uint8_t *, size_t, uint32_t, size_t, uint8_t *, size_t,
                                        int32_t *, size_t);
void __wrap_lachsbrille_log_read_record(lachsbrille_log_record *out, const uint8_t *bytes, size_t bytes_length, uint32_t layout,
                                        size_t logged, uint8_t *ordinals, size_t ordinals_length, int32_t *values,
                                        size_t values_length)
{
    lachsbrille_log_record *lent_out = WRITE(lachsbrille_log_record, out, 1);
    const uint8_t *lent_bytes = READ(uint8_t, bytes, bytes_length);
    uint8_t *lent_ordinals = WRITE(uint8_t, ordinals, ordinals_length);
    int32_t *lent_values = WRITE(int32_t, values, values_length);
    __real_lachsbrille_log_read_record(lent_out, lent_bytes, bytes_length, layout, logged, lent_ordinals, ordinals_length,
                                       lent_values, values_length);
    take_back();
}

lachsbrille_log_written __real_lachsbrille_log_write_record(uint8_t *, size_t, uint32_t, const lachsbrille_log_fields *, size_t,
                                                            const uint8_t *, size_t, const int32_t *, size_t, size_t);
lachsbrille_log_written __wrap_lachsbrille_log_write_record(uint8_t *to, size_t to_length, uint32_t layout,
                                                            const lachsbrille_log_fields *fields, size_t logged,
                                                            const uint8_t *ordinals, size_t ordinals_length, const int32_t *values,
                                                            size_t values_length, size_t count)
{
    uint8_t *lent_to = WRITE(uint8_t, to, to_length);
    const lachsbrille_log_fields *lent_fields = READ(lachsbrille_log_fields, fields, 1);
    const uint8_t *lent_ordinals = READ(uint8_t, ordinals, ordinals_length);
    const int32_t *lent_values = READ(int32_t, values, values_length);
    PASS(lachsbrille_log_written, __real_lachsbrille_log_write_record(lent_to, to_length, layout, lent_fields, logged,
                                                                      lent_ordinals, ordinals_length, lent_values, values_length,
                                                                      count));
}

void __real_lachsbrille_log_read(lachsbrille_log_outcome *, const uint8_t *, size_t, uint32_t, size_t);
void __wrap_lachsbrille_log_read(lachsbrille_log_outcome *out, const uint8_t *bytes, size_t bytes_length, uint32_t layout,
                                 size_t logged)
{
    lachsbrille_log_outcome *lent_out = WRITE(lachsbrille_log_outcome, out, 1);
    const uint8_t *lent_bytes = READ(uint8_t, bytes, bytes_length);
    __real_lachsbrille_log_read(lent_out, lent_bytes, bytes_length, layout, logged);
    take_back();
}
