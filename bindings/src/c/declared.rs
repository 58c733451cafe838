//! The C functions as the static library exports them. By the C ABI a slice is
//! passed as its pointer and its length, a result of over 16 bytes through
//! `out`, and a smaller struct by value.

use super::structs::{
    Device, DeviceLabels, Element, LogFields, LogMarks, LogOutcome, LogRecord, LogWritten,
    MessageFields, Presentation, ProcessData, Property, Record, Session, Step,
};

extern "C" {
    pub fn lachsbrille_version() -> u32;

    pub fn lachsbrille_read(
        pool: *const u8,
        pool_length: usize,
        table: *mut Record,
        table_length: usize,
        value: *mut usize,
    ) -> u32;
    pub fn lachsbrille_check(
        pool: *const u8,
        pool_length: usize,
        table: *mut Record,
        table_length: usize,
        faults: *mut u16,
        faults_length: usize,
        value: *mut usize,
    ) -> u32;
    pub fn lachsbrille_text_is_sound(text: *const u8, text_length: usize) -> bool;
    pub fn lachsbrille_text(
        pool: *const u8,
        pool_length: usize,
        table: *mut Record,
        table_length: usize,
        id: u32,
        from: *mut usize,
        to: *mut usize,
    ) -> u32;
    pub fn lachsbrille_labels(
        out: *mut DeviceLabels,
        pool: *const u8,
        pool_length: usize,
        table: *mut Record,
        table_length: usize,
    );

    pub fn lachsbrille_read_device(
        out: *mut Device,
        pool: *const u8,
        pool_length: usize,
        start: u16,
    );
    pub fn lachsbrille_read_element(
        out: *mut Element,
        pool: *const u8,
        pool_length: usize,
        start: u16,
    );
    pub fn lachsbrille_read_entry(pool: *const u8, pool_length: usize, start: u16, n: u16) -> u16;
    pub fn lachsbrille_read_process_data(
        out: *mut ProcessData,
        pool: *const u8,
        pool_length: usize,
        start: u16,
    );
    pub fn lachsbrille_read_property(
        out: *mut Property,
        pool: *const u8,
        pool_length: usize,
        start: u16,
    );
    pub fn lachsbrille_read_presentation(
        out: *mut Presentation,
        pool: *const u8,
        pool_length: usize,
        start: u16,
    );

    pub fn lachsbrille_session_new() -> Session;
    pub fn lachsbrille_session_offer(
        out: *mut Step,
        session: Session,
        size: usize,
        staging: *const u8,
        staging_length: usize,
        kept: *const u8,
        kept_length: usize,
    );
    pub fn lachsbrille_session_transfer(
        out: *mut Step,
        session: Session,
        piece: *const u8,
        piece_length: usize,
        staging: *mut u8,
        staging_length: usize,
    );
    pub fn lachsbrille_session_activate(
        out: *mut Step,
        session: Session,
        staging: *const u8,
        staging_length: usize,
        kept: *mut u8,
        kept_length: usize,
        table: *mut Record,
        table_length: usize,
    );
    pub fn lachsbrille_session_deactivate(out: *mut Step, session: Session);
    pub fn lachsbrille_session_delete(out: *mut Step, session: Session);
    pub fn lachsbrille_session_lost(out: *mut Step, session: Session);

    pub fn lachsbrille_message_read(bytes: *const u8, bytes_length: usize) -> MessageFields;
    pub fn lachsbrille_message_write_value(
        to: *mut u8,
        to_length: usize,
        command: u32,
        element: u32,
        ddi: u16,
        value: i32,
    ) -> u32;
    pub fn lachsbrille_message_write_acknowledge(
        to: *mut u8,
        to_length: usize,
        element: u32,
        ddi: u16,
        errors: u8,
        answered: u32,
    ) -> u32;
    pub fn lachsbrille_judge(
        pool: *const u8,
        pool_length: usize,
        table: *mut Record,
        table_length: usize,
        command: u32,
        element: u32,
        ddi: u16,
        value: i32,
        error: *mut u8,
    ) -> u32;
    pub fn lachsbrille_displayed(
        value: i32,
        offset: i32,
        scale: f32,
        decimals: u32,
        result: *mut f64,
    ) -> u32;

    pub fn lachsbrille_log_optional_fields(layout: u32) -> LogMarks;
    pub fn lachsbrille_log_read_record(
        out: *mut LogRecord,
        bytes: *const u8,
        bytes_length: usize,
        layout: u32,
        logged: usize,
        ordinals: *mut u8,
        ordinals_length: usize,
        values: *mut i32,
        values_length: usize,
    );
    pub fn lachsbrille_log_write_record(
        to: *mut u8,
        to_length: usize,
        layout: u32,
        fields: *const LogFields,
        logged: usize,
        ordinals: *const u8,
        ordinals_length: usize,
        values: *const i32,
        values_length: usize,
        count: usize,
    ) -> LogWritten;
    pub fn lachsbrille_log_read(
        out: *mut LogOutcome,
        bytes: *const u8,
        bytes_length: usize,
        layout: u32,
        logged: usize,
    );
}
