// The header and the library used from C++11: functions of every group, and structs that are passed as in C.
#include "lachsbrille.h"

#include <cstdint>
#include <cstdio>
#include <type_traits>
#include <vector>

namespace {

int failures = 0;

void check(bool holds, const char *what)
{
    if (!holds) {
        std::printf("linked.cpp: %s\n", what);
        failures++;
    }
}

template <typename Struct> constexpr bool is_plain()
{
    return std::is_standard_layout<Struct>::value && std::is_trivial<Struct>::value;
}

static_assert(is_plain<lachsbrille_record>() && is_plain<lachsbrille_device_labels>(), "pools");
static_assert(is_plain<lachsbrille_span>() && is_plain<lachsbrille_device>(), "fields");
static_assert(is_plain<lachsbrille_element>() && is_plain<lachsbrille_process_data>(), "fields");
static_assert(is_plain<lachsbrille_property>() && is_plain<lachsbrille_presentation>(), "fields");
static_assert(is_plain<lachsbrille_session>() && is_plain<lachsbrille_step>(), "sessions");
static_assert(is_plain<lachsbrille_message_fields>(), "messages");
static_assert(is_plain<lachsbrille_log_fields>() && is_plain<lachsbrille_log_marks>(), "logs");
static_assert(is_plain<lachsbrille_log_record>() && is_plain<lachsbrille_log_written>(), "logs");
static_assert(is_plain<lachsbrille_log_outcome>(), "logs");

// Pool P of the worked examples: a device and a device element.
const std::vector<std::uint8_t> pool = {
    'D', 'V', 'C', 0, 0, 0, 0, 0, 0, 0, 0, 0, 0, 0, 0, 0, 1, 1, 1, 1, 1, 1, 1, 0x65, 0x6E, 0, 0, 0, 0, 0xFF, 0,
    'D', 'E', 'T', 1, 0, 1, 0, 0, 0, 0, 0, 0, 0};

void pools()
{
    std::vector<lachsbrille_record> table(2);
    std::vector<std::uint16_t> faults(LACHSBRILLE_FAULT_WORDS);
    std::size_t value = 9;
    check(lachsbrille_check(pool.data(), pool.size(), table.data(), table.size(), faults.data(), faults.size(), &value) ==
              LACHSBRILLE_OK,
          "the pool is checked");
    check(value == 0 && table[1].kind == LACHSBRILLE_DET && table[1].start == 31, "it is accepted");
    check(table[0].parent == LACHSBRILLE_NO_ID && table[1].parent == 0, "its element is under its device");
    // The device alone lacks an element.
    check(lachsbrille_check(pool.data(), 31, table.data(), table.size(), faults.data(), faults.size(), &value) == LACHSBRILLE_OK &&
              value == 1 && faults == std::vector<std::uint16_t>({0, 11, 1, LACHSBRILLE_NO_ID, LACHSBRILLE_NO_ID}),
          "a fault of the whole pool has the ID of no record");
    lachsbrille_device_labels labels;
    lachsbrille_labels(&labels, pool.data(), pool.size(), table.data(), table.size());
    check(labels.number == LACHSBRILLE_OK && labels.localization[1] == 0x6E, "it has labels");
    check(lachsbrille_text_is_sound(pool.data(), 3), "its mark is a text");
}

// Empty slices of items of any type.
void nothing()
{
    std::size_t value = 9;
    check(lachsbrille_read(LACHSBRILLE_NOTHING, 0, LACHSBRILLE_NOTHING, 0, &value) == LACHSBRILLE_EMPTY_POOL && value == 0,
          "an empty pool is refused");
    check(lachsbrille_check(pool.data(), pool.size(), LACHSBRILLE_NOTHING, 0, LACHSBRILLE_NOTHING, 0, &value) ==
                  LACHSBRILLE_SHORT_TABLE &&
              value == 2,
          "a table of nothing is too short");
    lachsbrille_log_outcome log;
    lachsbrille_log_read(&log, LACHSBRILLE_NOTHING, 0, LACHSBRILLE_LAYOUT_ALL, 0);
    check(log.number == LACHSBRILLE_OK && log.count == 0, "a log may be empty");
}

void fields()
{
    lachsbrille_device device;
    lachsbrille_read_device(&device, pool.data(), pool.size(), 0);
    check(device.localization.from == 23 && pool[device.localization.from] == 'e', "it has a localization label");
    lachsbrille_element element;
    lachsbrille_read_element(&element, pool.data(), pool.size(), 31);
    check(element.type == 1 && element.entries == 0, "it has an element");
}

void sessions()
{
    std::vector<std::uint8_t> staging(64), kept(64);
    std::vector<lachsbrille_record> table(2);
    const auto session = lachsbrille_session_new();
    lachsbrille_step step;
    lachsbrille_session_offer(&step, session, pool.size(), staging.data(), staging.size(), kept.data(), kept.size());
    lachsbrille_session_transfer(&step, step.session, pool.data(), pool.size(), staging.data(), staging.size());
    lachsbrille_session_activate(&step, step.session, staging.data(), staging.size(), kept.data(), kept.size(), table.data(),
                                 table.size());
    check(step.number == LACHSBRILLE_OK && step.session.active == 1 && step.session.kept == pool.size(), "it is active");
}

void exchange()
{
    std::uint8_t bytes[LACHSBRILLE_MESSAGE_LENGTH];
    check(lachsbrille_message_write_value(bytes, sizeof bytes, LACHSBRILLE_VALUE, 18, 141, -1) == LACHSBRILLE_OK,
          "a message is written");
    const auto message = lachsbrille_message_read(bytes, sizeof bytes);
    check(message.element == 18 && message.ddi == 141 && message.value == -1, "it reads back");
    double shown = 9;
    check(lachsbrille_displayed(100, -20, 0.5f, 1, &shown) == LACHSBRILLE_OK && shown == 40, "a value is displayed");
}

void logs()
{
    lachsbrille_log_fields fields{};
    fields.time = 1000;
    const std::uint8_t ordinal = 0;
    const std::int32_t value = -5;
    std::uint8_t bytes[12];
    const auto written = lachsbrille_log_write_record(bytes, sizeof bytes, 0, &fields, 1, &ordinal, 1, &value, 1, 1);
    check(written.number == LACHSBRILLE_OK && written.length == sizeof bytes, "a log record is written");
    lachsbrille_log_outcome log;
    lachsbrille_log_read(&log, bytes, sizeof bytes, 0, 1);
    check(log.number == LACHSBRILLE_OK && log.count == 1, "the log is read");
}

} // namespace

int main()
{
    check(lachsbrille_version() == LACHSBRILLE_VERSION, "header and library are of one release");
    pools();
    nothing();
    fields();
    sessions();
    exchange();
    logs();
    return failures;
}
