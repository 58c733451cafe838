//! Independent second implementation: what the proved library answers is
//! compared with what this one answers. It is written from the rules and
//! shares no code with the library.

mod book;
mod chains;
mod displayed;
mod faults;
mod fields;
mod judging;
mod lister;
mod logs;
mod messages;
mod numbers;
mod ordinals;
mod pool;
mod queries;
mod rules;
mod session;
mod texts;
mod views;

pub use book::{Book, Entry};
pub use displayed::displayed;
pub use faults::Fault;
pub use judging::judge;
pub use lister::list;
pub use logs::{
    optional_fields, read_log, read_record, write_record, LogFields, LogRecord, LogRefusal,
};
pub use messages::{read_message, write_acknowledge, write_value, Message};
pub use pool::{read_pool, Kind, Record, Refusal, MAX_POOL_BYTES, MAX_RECORDS};
pub use queries::{labels, text, Labels};
pub use rules::check;
pub use session::{Answer, Session, Stage, Step};
pub use texts::text_is_sound;
pub use views::{
    read_device, read_element, read_entry, read_presentation, read_process_data, read_property,
    DeviceView, ElementView, PresentationView, ProcessDataView, PropertyView,
};
