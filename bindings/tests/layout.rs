//! The structs have the layout that the C compilers give them, which
//! `tests/interface` prints and compares with the same list.

#![cfg(target_pointer_width = "64")]

use lachsbrille::c::{
    Device, DeviceLabels, Element, LogFields, LogMarks, LogOutcome, LogRecord, LogWritten,
    MessageFields, Presentation, ProcessData, Property, Record, Session, Span, Step,
};
use std::mem::{align_of, offset_of, size_of};

const C_LAYOUT: &str = include_str!("../../tests/interface/layout.txt");

macro_rules! lines {
    ($lines:ident, $($type:ident $name:literal { $($field:ident)* })*) => {
        $(
            let (size, align) = (size_of::<$type>(), align_of::<$type>());
            $lines.push(format!("{} size {size} align {align}", $name));
            $(
                let (offset, size) = (offset_of!($type, $field), size_of_field(|it: &$type| &it.$field));
                let field = c_name(stringify!($field));
                $lines.push(format!("{}.{field} at {offset} size {size}", $name));
            )*
        )*
    };
}

fn size_of_field<Struct, Field>(_: impl Fn(&Struct) -> &Field) -> usize {
    size_of::<Field>()
}

/// `type` is a keyword of Rust.
fn c_name(field: &str) -> &str {
    match field {
        "element_type" => "type",
        _ => field,
    }
}

#[test]
fn structs_have_c_s_layout() {
    let mut lines = Vec::new();
    lines! { lines,
        Record "lachsbrille_record" { start length kind id parent }
        DeviceLabels "lachsbrille_device_labels" {
            number structure localization extended extended_length
        }
        Span "lachsbrille_span" { from to }
        Device "lachsbrille_device" {
            designator version name serial structure localization extended
        }
        Element "lachsbrille_element" { element_type designator number parent entries }
        ProcessData "lachsbrille_process_data" {
            ddi properties triggers designator presentation
        }
        Property "lachsbrille_property" { ddi value designator presentation }
        Presentation "lachsbrille_presentation" { offset scale decimals unit }
        Session "lachsbrille_session" { announced received kept stage active }
        Step "lachsbrille_step" { session place number record rule item id parent }
        MessageFields "lachsbrille_message_fields" {
            number value element ddi command errors answered
        }
        LogFields "lachsbrille_log_fields" {
            time days north east up status pdop hdop satellites gps_time gps_date
        }
        LogMarks "lachsbrille_log_marks" { number count }
        LogRecord "lachsbrille_log_record" { number length count fields }
        LogWritten "lachsbrille_log_written" { number length }
        LogOutcome "lachsbrille_log_outcome" { number count start }
    }
    let expected: Vec<&str> = C_LAYOUT.lines().collect();
    assert_eq!(lines, expected);
}
