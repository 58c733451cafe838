//! The C functions one by one, under their C names without `lachsbrille_`.
//!
//! A slice stands for a pointer and a length, a reference for a lent number, a
//! result or the fields of a log record. Numbers, structs and lent memory are
//! exactly what C gets: 0 or a refusal's number. The functions outside this
//! module return a `Result` instead.

mod declared;
mod exchange;
mod logs;
mod objects;
mod pools;
mod sessions;
mod structs;

pub use exchange::{
    displayed, judge, message_read, message_write_acknowledge, message_write_value,
};
pub use logs::{log_optional_fields, log_read, log_read_record, log_write_record};
pub use objects::{
    read_device, read_element, read_entry, read_presentation, read_process_data, read_property,
};
pub use pools::{check, labels, read, text, text_is_sound};
pub use sessions::{
    session_activate, session_deactivate, session_delete, session_lost, session_new, session_offer,
    session_transfer,
};
pub use structs::{
    Device, DeviceLabels, Element, LogFields, LogMarks, LogOutcome, LogRecord, LogWritten,
    MessageFields, Presentation, ProcessData, Property, Record, Session, Span, Step,
};

/// The release of the library: major * 10,000 + minor * 100 + patch.
#[inline]
pub fn version() -> u32 {
    // SAFETY: the function takes nothing and gives a number.
    unsafe { declared::lachsbrille_version() }
}
