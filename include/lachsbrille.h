/**
 * @file
 * Lachsbrille: the proved core of a task controller according to ISO 11783-10, for C99 and C++11.
 *
 * `./lachsbrille build` makes the library to link with, liblachsbrille.a, for 64-bit little-endian Linux on x86-64 or aarch64. It
 * needs memcpy and memset of the platform, and nothing else. The functions below are the ones that are proved: no layer of C lies
 * between them and their caller.
 *
 * Results. A result of more than 16 bytes goes into `out`, the first parameter. Every call writes all of it, also a refused one.
 *
 * Lent memory. A slice is a pointer and a length, which counts items and not bytes. The pointer of an empty slice must not be
 * null: use LACHSBRILLE_NOTHING with a length of 0. Nothing that is lent to one call may overlap: no two areas, lent numbers or
 * results may share a byte. A call uses what it is lent only until it returns. What a call writes to and does not read may be
 * uninitialised: a table, a fault buffer, a result, a lent number, the lists that a log record is read into, the bytes that a
 * message or a record is written to, staging, and the kept area until a pool is kept there.
 *
 * State. There is no heap, no global variable and no lock: a call depends on its arguments and on what they lend, so any
 * number of calls may run at once as long as they share no memory that one of them writes.
 *
 * Stack. The most bytes that a call takes, whatever pool, table or other memory it is lent:
 *
 *     read                 11,100
 *     check                59,200
 *     text                 59,500
 *     labels               59,600
 *     judge                59,400
 *     session_activate     59,200
 *     the others              300
 *
 * Refusals. A call gives 0 or a refusal's number; where several apply, the one that is listed first for the call below. Unless said
 * otherwise a refusal changes no lent memory, and lent numbers and the other fields of a result are 0. A number that may be out of
 * range is passed in 32 bits, so that none is truncated to a valid one before it is judged.
 *
 * Counting. Positions count from 0, records from 1.
 */
#ifndef LACHSBRILLE_H
#define LACHSBRILLE_H

#include <stdbool.h>
#include <stddef.h>
#include <stdint.h>

/**
 * A pointer for an empty slice of any items, to be lent with a length of 0 in the place of NULL. It is aligned for every item, and
 * nothing is read or written there.
 */
#ifdef __cplusplus
struct lachsbrille_nothing {
    template <typename Item> operator Item *() const { return reinterpret_cast<Item *>(16); }
};
#define LACHSBRILLE_NOTHING (lachsbrille_nothing())
#else
#define LACHSBRILLE_NOTHING ((void *)16)
#endif

#ifdef __cplusplus
extern "C" {
#endif

/* ---- Numbers ------------------------------------------------------------------------------------------------------- */

/** The release that this header belongs to: major * 10,000 + minor * 100 + patch. lachsbrille_version gives that of the library. */
#define LACHSBRILLE_VERSION 20000u

/** Why a call is refused. docs/REFUSALS.md has a line for each, with its cause and what to do about it. */
enum lachsbrille_refusal {
    LACHSBRILLE_OK = 0,

    /* A pool is not read. */
    LACHSBRILLE_EMPTY_POOL = 1,   /**< it has no byte */
    LACHSBRILLE_LONG_POOL = 2,    /**< it has over 65,535 bytes */
    LACHSBRILLE_NO_MARK = 3,      /**< where a record should begin there is none of the five marks */
    LACHSBRILLE_CUT_RECORD = 4,   /**< it ends inside a record */
    LACHSBRILLE_LONG_TEXT = 5,    /**< a length byte is over its limit */
    LACHSBRILLE_MANY_RECORDS = 6, /**< it has over 8,192 records; proved never to happen */
    LACHSBRILLE_SHORT_TABLE = 7,  /**< the pool has more records than the table has entries */

    /* A session call. */
    LACHSBRILLE_BAD_SIZE = 20,           /**< the size offered is 0 or over 65,535 */
    LACHSBRILLE_NOTHING_OFFERED = 21,    /**< nothing is offered and, when activating, nothing is kept either */
    LACHSBRILLE_BAD_PIECE = 22,          /**< a piece is empty or longer than what is still to come */
    LACHSBRILLE_STOPPED_EARLY = 23,      /**< fewer bytes arrived than were announced */
    LACHSBRILLE_FAULTY = 24,             /**< the pool has a fault; also given for texts, labels and judgements */
    LACHSBRILLE_NOT_ACTIVE = 25,         /**< nothing is active */
    LACHSBRILLE_SHORT_AREA = 26,         /**< an area is too short */
    LACHSBRILLE_IMPOSSIBLE_SESSION = 27, /**< no calls lead to this session value; so with a stage or active other than 0 and 1 */

    /* A text. */
    LACHSBRILLE_NO_SUCH_ID = 28, /**< no record has the ID */

    /* A process data message, or a command that is judged. */
    LACHSBRILLE_NOT_EIGHT_BYTES = 30,     /**< the message does not have eight bytes */
    LACHSBRILLE_BAD_COMMAND = 31,         /**< the command is not one that is read or written here */
    LACHSBRILLE_BAD_ELEMENT = 32,         /**< the element number is over 4,095 or the answered command over 15 */
    LACHSBRILLE_NO_ROOM_FOR_MESSAGE = 33, /**< fewer than eight bytes are lent */

    /* A log record or a log. */
    LACHSBRILLE_CUT_LOG_RECORD = 40,         /**< the bytes end inside the record */
    LACHSBRILLE_BAD_TIME = 41,               /**< the time of day is over 86,399,999 ms */
    LACHSBRILLE_BAD_NORTH = 42,              /**< north is beyond 900,000,000 either way */
    LACHSBRILLE_BAD_EAST = 43,               /**< east is beyond 1,800,000,000 either way */
    LACHSBRILLE_BAD_STATUS = 44,             /**< the position status is not 0 to 8, 14 or 15 */
    LACHSBRILLE_BAD_ORDINAL = 45,            /**< an ordinal is not below the header's count of log values */
    LACHSBRILLE_NO_ROOM_FOR_LOG_RECORD = 46, /**< a list lent for reading, or the bytes lent for writing, are too short */
    LACHSBRILLE_BAD_LAYOUT = 47,             /**< the layout has a bit above 8 */
    LACHSBRILLE_MANY_LOG_VALUES = 48,        /**< a record would have over 255 values, or more than a list holds */

    /* A displayed value. */
    LACHSBRILLE_BAD_PRESENTATION = 50 /**< the scale or the decimals are out of range */
};

/** The kinds of records. */
enum lachsbrille_kind {
    LACHSBRILLE_DVC = 1, /**< device */
    LACHSBRILLE_DET = 2, /**< device element */
    LACHSBRILLE_DPD = 3, /**< process data */
    LACHSBRILLE_DPT = 4, /**< property */
    LACHSBRILLE_DVP = 5  /**< value presentation */
};

/** The stage of a session's transfer. */
enum lachsbrille_stage { LACHSBRILLE_STAGE_NONE = 0, LACHSBRILLE_STAGE_OFFERED = 1 };

/** The commands of messages. All but the acknowledge carry a value. */
enum lachsbrille_command {
    LACHSBRILLE_REQUEST_VALUE = 2,
    LACHSBRILLE_VALUE = 3,
    LACHSBRILLE_TIME_INTERVAL = 4,
    LACHSBRILLE_DISTANCE_INTERVAL = 5,
    LACHSBRILLE_MINIMUM_WITHIN_THRESHOLD = 6,
    LACHSBRILLE_MAXIMUM_WITHIN_THRESHOLD = 7,
    LACHSBRILLE_CHANGE_THRESHOLD = 8,
    LACHSBRILLE_SET_AND_ACKNOWLEDGE = 10,
    LACHSBRILLE_ACKNOWLEDGE = 13
};

/** The error byte of a judgement: the first that applies. An acknowledge carries the same bits. */
enum lachsbrille_error {
    LACHSBRILLE_ERROR_COMMAND = 0x01,  /**< the command is not one that carries a value */
    LACHSBRILLE_ERROR_ELEMENT = 0x02,  /**< there is no such device element */
    LACHSBRILLE_ERROR_DDI = 0x04,      /**< its list has no process data or property of that DDI */
    LACHSBRILLE_ERROR_TRIGGER = 0x08,  /**< the trigger method of commands 4 to 8 is not offered */
    LACHSBRILLE_ERROR_SETTABLE = 0x10, /**< commands 3 and 10 for what is not settable */
    LACHSBRILLE_ERROR_INTERVAL = 0x20  /**< commands 4 and 5 with a negative value */
};

/** The optional fields of a log record that a layout marks. */
enum lachsbrille_layout {
    LACHSBRILLE_LAYOUT_NORTH = 0x001,
    LACHSBRILLE_LAYOUT_EAST = 0x002,
    LACHSBRILLE_LAYOUT_UP = 0x004,
    LACHSBRILLE_LAYOUT_STATUS = 0x008,
    LACHSBRILLE_LAYOUT_PDOP = 0x010,
    LACHSBRILLE_LAYOUT_HDOP = 0x020,
    LACHSBRILLE_LAYOUT_SATELLITES = 0x040,
    LACHSBRILLE_LAYOUT_GPS_TIME = 0x080,
    LACHSBRILLE_LAYOUT_GPS_DATE = 0x100,
    LACHSBRILLE_LAYOUT_ALL = 0x1FF
};

/** Sizes. */
enum lachsbrille_size {
    LACHSBRILLE_RECORDS_MOST = 5461,   /**< most records of a pool, of at least 12 bytes each: such a table is never too short */
    LACHSBRILLE_FAULT_WORDS = 5,       /**< words of a fault in the fault buffer */
    LACHSBRILLE_MESSAGE_LENGTH = 8,    /**< bytes of a message */
    LACHSBRILLE_ELEMENT_MOST = 4095,   /**< the greatest element number */
    LACHSBRILLE_LOG_VALUES_MOST = 255, /**< values of a log record */
    LACHSBRILLE_LOG_RECORD_MOST = 1306 /**< bytes of a log record */
};

/** The most bytes that a pool may have. Not an enumerator, since an int may be too narrow for it. */
#define LACHSBRILLE_POOL_MOST 65535u

/**
 * The ID of no record. A presentation of this ID means none. It is also the parent of a record whose kind has none, and both the ID and
 * the parent of a fault of the whole pool.
 */
#define LACHSBRILLE_NO_ID 65535u

/** The release of the library: LACHSBRILLE_VERSION of its header. */
uint32_t lachsbrille_version(void);

/* ---- Pools --------------------------------------------------------------------------------------------------------- */

/** A record of a pool: an entry of the working table. */
typedef struct lachsbrille_record {
    uint16_t start;
    uint16_t length;
    uint16_t kind;   /**< enum lachsbrille_kind */
    uint16_t id;
    uint16_t parent; /**< a device element's parent ID as it stands in the pool, whatever it names; LACHSBRILLE_NO_ID for other kinds */
} lachsbrille_record;

/** The labels of a device. */
typedef struct lachsbrille_device_labels {
    uint32_t number;
    uint8_t structure[7];
    uint8_t localization[7];
    uint8_t extended[32];
    uint16_t extended_length; /**< bytes of the extended label that are used; the others are 0 */
} lachsbrille_device_labels;

/**
 * Reads a pool: divides it into records and lists them in the table.
 *
 * 0: `value` is the count of records, and the table starts with them; later entries are left as they were.
 * 1 to 7: `value` is the place: 0 for 1, 2 and 6; where the record starts for 3 and 4; the length byte for 5; the number of
 * entries that the table needs for 7. Between 3, 4 and 5 the earliest bad record decides, read from left to right: the bytes
 * 44 56 43 00 00 81 give 5 at place 5, and not 4, though the text that is announced is missing. The table is left as it was.
 */
uint32_t lachsbrille_read(const uint8_t *pool, size_t pool_length,
                          lachsbrille_record *table, size_t table_length,
                          size_t *value);

/**
 * Checks a pool against the rule table. docs/REFUSALS.md has the rules and their items.
 *
 * The fault buffer is words, five for each fault: record, rule, item, and the ID and parent of that record as its table entry has them,
 * also where they are what is wrong. For the whole pool the record is 0, and ID and parent are LACHSBRILLE_NO_ID. The buffer's length
 * counts words, so it has room for length / LACHSBRILLE_FAULT_WORDS faults.
 *
 * 0: `value` is the full count of faults; a pool is accepted if it is 0. The buffer starts with the faults in the order of
 * record, rule and item, as many whole ones as fit; its other words are left as they were, also up to four at its end that are too
 * few for a fault. The table is filled as in reading.
 * 1 to 7: as in reading, and the buffer is left as it was.
 */
uint32_t lachsbrille_check(const uint8_t *pool, size_t pool_length,
                           lachsbrille_record *table, size_t table_length,
                           uint16_t *faults, size_t faults_length,
                           size_t *value);

/** Whether a text keeps rule 4: well-formed UTF-8 that does not begin with a byte order mark, of at most 32 characters. */
bool lachsbrille_text_is_sound(const uint8_t *text, size_t text_length);

/**
 * The designator or unit text of the first record with an ID. The pool must be accepted; it is checked on every call, so that
 * no earlier check can be out of date.
 *
 * 0: the text is pool[from] up to, but not including, pool[to]; for an empty text from equals to.
 * 1 to 7: the pool is not read, and the table is left as it was.
 * 24: it has a fault. 28: no record has the ID. The table is filled as in reading after 0, 24 and 28.
 */
uint32_t lachsbrille_text(const uint8_t *pool, size_t pool_length,
                          lachsbrille_record *table, size_t table_length,
                          uint32_t id,
                          size_t *from, size_t *to);

/**
 * The structure label, the localization label and the extended structure label of the device. The pool must be accepted.
 *
 * number 0: the labels. 1 to 7: the pool is not read, and the table is left as it was. 24: it has a fault.
 * The table is filled as in reading after 0 and 24.
 */
void lachsbrille_labels(lachsbrille_device_labels *out,
                        const uint8_t *pool, size_t pool_length,
                        lachsbrille_record *table, size_t table_length);

/* ---- The fields of a record ---------------------------------------------------------------------------------------- */

/*
 * The fields of the record that starts at a given place; the table has its `start` and its `kind`. Texts and labels are given as
 * places in the pool. Any pool and any place may be passed: nothing is judged, the bytes are read as if a whole record of that kind
 * started there, and bytes past the pool's end are read as 0. For a record of a pool that was read, these places lie within the pool.
 */

/** A part of the pool: pool[from] up to, but not including, pool[to]. */
typedef struct lachsbrille_span {
    size_t from;
    size_t to;
} lachsbrille_span;

/** A device (DVC). */
typedef struct lachsbrille_device {
    lachsbrille_span designator;
    lachsbrille_span version; /**< software version */
    uint64_t name;            /**< NAME of the client; its first byte is the lowest */
    lachsbrille_span serial;  /**< serial number */
    lachsbrille_span structure;
    lachsbrille_span localization;
    lachsbrille_span extended; /**< extended structure label */
} lachsbrille_device;

/** A device element (DET). */
typedef struct lachsbrille_element {
    uint8_t type; /**< 1 device, 2 function, 3 bin, 4 section, 5 unit, 6 connector, 7 navigation reference */
    lachsbrille_span designator;
    uint16_t number;  /**< element number */
    uint16_t parent;  /**< ID of the device or device element that it belongs to */
    uint16_t entries; /**< how many entries its list has; lachsbrille_read_entry reads one */
} lachsbrille_element;

/** A device process data (DPD). */
typedef struct lachsbrille_process_data {
    uint16_t ddi;
    uint8_t properties; /**< bit 0 default set, 1 settable, 2 control source */
    uint8_t triggers;   /**< bit 0 time, 1 distance, 2 threshold, 3 on change, 4 total */
    lachsbrille_span designator;
    uint16_t presentation; /**< ID of its value presentation, or LACHSBRILLE_NO_ID */
} lachsbrille_process_data;

/** A device property (DPT). */
typedef struct lachsbrille_property {
    uint16_t ddi;
    int32_t value;
    lachsbrille_span designator;
    uint16_t presentation; /**< ID of its value presentation, or LACHSBRILLE_NO_ID */
} lachsbrille_property;

/** A device value presentation (DVP). */
typedef struct lachsbrille_presentation {
    int32_t offset;
    uint32_t scale; /**< the bits of a float: memcpy them into one */
    uint8_t decimals;
    lachsbrille_span unit; /**< unit text */
} lachsbrille_presentation;

/** Reads the fields of a device. */
void lachsbrille_read_device(lachsbrille_device *out, const uint8_t *pool, size_t pool_length, uint16_t start);

/** Reads the fields of a device element. */
void lachsbrille_read_element(lachsbrille_element *out, const uint8_t *pool, size_t pool_length, uint16_t start);

/**
 * The ID that entry n of a device element's list names, counted from 0. If n is `entries` or more, there is no such entry: the
 * bytes after the list are read as if it went on.
 */
uint16_t lachsbrille_read_entry(const uint8_t *pool, size_t pool_length, uint16_t start, uint16_t n);

/** Reads the fields of a device process data. */
void lachsbrille_read_process_data(lachsbrille_process_data *out, const uint8_t *pool, size_t pool_length, uint16_t start);

/** Reads the fields of a device property. */
void lachsbrille_read_property(lachsbrille_property *out, const uint8_t *pool, size_t pool_length, uint16_t start);

/** Reads the fields of a device value presentation. */
void lachsbrille_read_presentation(lachsbrille_presentation *out, const uint8_t *pool, size_t pool_length, uint16_t start);

/* ---- Sessions ------------------------------------------------------------------------------------------------------ */

/**
 * One client's session. Begin with lachsbrille_session_new, and pass each call the value that the last one returned, with the
 * same two areas: staging, into which pieces are written, and kept, into which an accepted pool is copied. Between calls
 * leave the value and the areas as they are; what a session promises depends on it. While nothing is offered, no call looks at what
 * staging holds, and it may be used for something else. The pool that is kept, and that is active if `active` is 1, is the first
 * `kept` bytes of the kept area: pass these to the calls for texts, labels and judgements.
 */
typedef struct lachsbrille_session {
    uint32_t announced; /**< bytes of the pool that is offered */
    uint32_t received;  /**< bytes that have arrived of it */
    uint32_t kept;      /**< length of the pool that the kept area starts with, 0 for none */
    uint16_t stage;     /**< enum lachsbrille_stage; any other number is refused with 27 */
    uint16_t active;    /**< 0 or 1; any other number is refused with 27 */
} lachsbrille_session;

/**
 * What a session call returns: the session value after it, and its answer. After a refusal `session` is the value that was passed,
 * except where activating says otherwise. `place` and the five numbers of a fault, `record` to `parent`, are 0 unless activating sets
 * them: an answer without a fault has ID and parent 0 and not LACHSBRILLE_NO_ID.
 */
typedef struct lachsbrille_step {
    lachsbrille_session session;
    size_t place;
    uint32_t number; /**< enum lachsbrille_refusal */
    uint16_t record;
    uint16_t rule;
    uint16_t item;
    uint16_t id;     /**< of the fault's record */
    uint16_t parent; /**< of the fault's record */
} lachsbrille_step;

/** A new session: nothing offered, kept or active. */
lachsbrille_session lachsbrille_session_new(void);

/**
 * Announces the size of a pool. An earlier offer is forgotten. Of the two areas only the lengths matter; neither is written.
 *
 * 0: offered, and nothing received.
 * 27: impossible session value. 20: the size is 0 or over 65,535. 26: an area is shorter than the size.
 */
void lachsbrille_session_offer(lachsbrille_step *out, lachsbrille_session session,
                               size_t size,
                               const uint8_t *staging, size_t staging_length,
                               const uint8_t *kept, size_t kept_length);

/**
 * Copies a piece of the pool into staging, after the bytes already received. Every other byte of staging is left as it was.
 *
 * 0: the piece is received.
 * 27: impossible session value. 21: nothing is offered. 22: the piece is empty or longer than what is still to come.
 * 26: staging is shorter than announced.
 */
void lachsbrille_session_transfer(lachsbrille_step *out, lachsbrille_session session,
                                  const uint8_t *piece, size_t piece_length,
                                  uint8_t *staging, size_t staging_length);

/**
 * Activates the pool that is offered, or else the one that is kept.
 *
 * 0: active. After an offer the kept area starts with the pool and its other bytes are as they were, the stage is none and the table
 * is filled as in reading. If nothing was offered, the kept pool is active again, and neither it nor the table is looked at.
 * 27: impossible session value.
 * 21: nothing is offered and nothing kept.
 * 23: fewer bytes arrived than were announced. The offer stands, so the rest may follow.
 * 26: the kept area is shorter than the pool, or, if a pool is offered, staging is. An offer stands.
 * 3 to 6: the pool is not read, `place` as in reading. The offer is over. (1 and 2 cannot occur, since the size was judged.)
 * 7: the table is too short, `place` says how many entries it needs. The offer stands: try again with a longer table.
 * 24: the pool has a fault; `record`, `rule`, `item`, `id` and `parent` are its first one, as checking gives it. The offer is over.
 * The table is filled. Staging still starts with the pool: lachsbrille_check of staging, with the size that was offered, lists the
 * other faults.
 * After every refusal the kept area, the kept size and `active` are as they were: the earlier pool remains in force.
 */
void lachsbrille_session_activate(lachsbrille_step *out, lachsbrille_session session,
                                  const uint8_t *staging, size_t staging_length,
                                  uint8_t *kept, size_t kept_length,
                                  lachsbrille_record *table, size_t table_length);

/** Deactivates the pool; it stays kept, and an offer stands. 27: impossible session value. 25: nothing is active. */
void lachsbrille_session_deactivate(lachsbrille_step *out, lachsbrille_session session);

/** Forgets the pool that is kept, and an offer. 27: impossible session value. */
void lachsbrille_session_delete(lachsbrille_step *out, lachsbrille_session session);

/** The connection is lost: no pool is active, an offer is forgotten, a kept pool stays kept. 27: impossible session value. */
void lachsbrille_session_lost(lachsbrille_step *out, lachsbrille_session session);

/* ---- Process data messages ----------------------------------------------------------------------------------------- */

/** A message that was read. A value message has errors and answered 0, an acknowledge (command 13) has value 0. */
typedef struct lachsbrille_message_fields {
    uint32_t number; /**< enum lachsbrille_refusal */
    int32_t value;
    uint16_t element; /**< element number */
    uint16_t ddi;
    uint8_t command;  /**< enum lachsbrille_command */
    uint8_t errors;   /**< enum lachsbrille_error, any of them together; the two highest bits are given as received */
    uint8_t answered; /**< the command that is acknowledged, 0 to 15 */
} lachsbrille_message_fields;

/**
 * Reads a message. number 0: its fields. 30: not eight bytes. 31: a command other than 2 to 8, 10 and 13.
 *
 * Any error byte of an acknowledge is read. The upper half of its byte 6 and its bytes 7 and 8 are ignored.
 */
lachsbrille_message_fields lachsbrille_message_read(const uint8_t *bytes, size_t bytes_length);

/**
 * Writes a value message into the first eight bytes; the others are left as they were.
 *
 * 31: a command other than 2 to 8 and 10. 32: the element number is over 4,095. 33: fewer than eight bytes are lent.
 */
uint32_t lachsbrille_message_write_value(uint8_t *to, size_t to_length,
                                         uint32_t command, uint32_t element, uint16_t ddi, int32_t value);

/**
 * Writes an acknowledge into the first eight bytes; the others are left as they were. Any error byte is written, and the bits that
 * reading ignores are written as ones.
 *
 * 32: the element number is over 4,095 or the answered command over 15. 33: fewer than eight bytes are lent.
 */
uint32_t lachsbrille_message_write_acknowledge(uint8_t *to, size_t to_length,
                                               uint32_t element, uint16_t ddi, uint8_t errors, uint32_t answered);

/**
 * Judges a command to the device: whether its pool lets it take the command. The pool must be accepted.
 *
 * 0: `error` is the error byte, 0 if the device takes the command. An unknown command is error 0x01, not a refusal.
 * 32: the element number is over 4,095; judged before the pool, and the table is left as it was.
 * 1 to 7: the pool is not read, and the table is left as it was. 24: it has a fault.
 * The table is filled as in reading after 0 and 24.
 */
uint32_t lachsbrille_judge(const uint8_t *pool, size_t pool_length,
                           lachsbrille_record *table, size_t table_length,
                           uint32_t command, uint32_t element, uint16_t ddi, int32_t value,
                           uint8_t *error);

/* ---- Displayed value ----------------------------------------------------------------------------------------------- */

/**
 * The value that a display shows according to a value presentation: (value + offset) times scale. Only the product is rounded, once.
 * The decimals are judged and change nothing: how many digits are drawn is up to the display.
 *
 * The floating-point environment must be the default one: rounding to nearest, no exception trapped. With another rounding the
 * last bit may differ, and an unmasked exception ends the program.
 *
 * 0: `result` is the value.
 * 50: the scale's bits are outside 0x322BCC77 to 0x4CBEBC20 (about 1e-8 to 1e8, no NaN), or the decimals are over 7.
 */
uint32_t lachsbrille_displayed(int32_t value, int32_t offset, float scale, uint32_t decimals, double *result);

/* ---- Time log ------------------------------------------------------------------------------------------------------ */

/** The fields of a log record. A field that the layout does not mark is 0 when read, and neither judged nor written. */
typedef struct lachsbrille_log_fields {
    uint32_t time; /**< of day, in ms */
    uint16_t days; /**< since 1980-01-01 */
    int32_t north; /**< 1e-7 degrees, WGS-84 */
    int32_t east;  /**< 1e-7 degrees, WGS-84 */
    int32_t up;    /**< mm above the ellipsoid of WGS-84 */
    uint8_t status; /**< of the position; 15 means that it is missing */
    uint16_t pdop;  /**< tenths */
    uint16_t hdop;  /**< tenths */
    uint8_t satellites; /**< the number used */
    uint32_t gps_time;  /**< UTC, ms since midnight */
    uint16_t gps_date;  /**< UTC, days since 1980-01-01 */
} lachsbrille_log_fields;

/** How many optional fields a layout marks. */
typedef struct lachsbrille_log_marks {
    uint32_t number;
    uint32_t count;
} lachsbrille_log_marks;

/** A log record that was read. */
typedef struct lachsbrille_log_record {
    uint32_t number;
    size_t length; /**< bytes that it takes */
    size_t count;  /**< ordinals and values that it has */
    lachsbrille_log_fields fields;
} lachsbrille_log_record;

/** A log record that was written. */
typedef struct lachsbrille_log_written {
    uint32_t number;
    size_t length; /**< bytes that it takes */
} lachsbrille_log_written;

/** A log that was read. */
typedef struct lachsbrille_log_outcome {
    uint32_t number;
    size_t count; /**< the number of its records */
    size_t start; /**< where the refused record starts */
} lachsbrille_log_outcome;

/** How many optional fields a layout marks. number 0: the count. 47: the layout has a bit above 8. */
lachsbrille_log_marks lachsbrille_log_optional_fields(uint32_t layout);

/**
 * Reads the log record that the bytes start with. `logged` is the log header's count of log values.
 *
 * number 0: length, count and fields. Both lists start with the record's ordinals and values; their other items are as they were.
 * 47: the layout has a bit above 8. 40: the bytes end inside the record. 41 to 45, in field order: time, north, east, status
 * or an ordinal is out of range. 46: a list is shorter than count.
 */
void lachsbrille_log_read_record(lachsbrille_log_record *out,
                                 const uint8_t *bytes, size_t bytes_length,
                                 uint32_t layout, size_t logged,
                                 uint8_t *ordinals, size_t ordinals_length,
                                 int32_t *values, size_t values_length);

/**
 * Writes a log record of the first `count` ordinals and values. `logged` is the log header's count of log values.
 *
 * number 0: its length; the bytes after it are left as they were.
 * 47: the layout has a bit above 8. 48: count is over 255 or over a list's length. 41 to 45, in field order: time, north,
 * east, status or an ordinal is out of range. 46: fewer bytes are lent than the record takes.
 */
lachsbrille_log_written lachsbrille_log_write_record(uint8_t *to, size_t to_length,
                                                     uint32_t layout, const lachsbrille_log_fields *fields, size_t logged,
                                                     const uint8_t *ordinals, size_t ordinals_length,
                                                     const int32_t *values, size_t values_length,
                                                     size_t count);

/**
 * Reads a log: checks all of its records and counts them. A log without a byte has no record.
 *
 * number 0: the count of records. 47: the layout has a bit above 8. 40 to 45: as in reading a record, for the first record
 * that is refused; `start` is where it begins, and count is 0.
 */
void lachsbrille_log_read(lachsbrille_log_outcome *out,
                          const uint8_t *bytes, size_t bytes_length, uint32_t layout, size_t logged);

#ifdef __cplusplus
}
#endif

#endif
