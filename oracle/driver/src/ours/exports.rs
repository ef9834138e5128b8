//! The exports of our static library: C functions with plain slices (a pointer, then a length) and lent arrays (a pointer). Every export that a
//! program here calls is declared in this file and nowhere else; README.md says what each must do.

pub type Out = [u32; 4];

/// A record as it is lent.
#[repr(C)]
#[derive(Clone, Copy, Debug, PartialEq)]
pub struct FieldRecord {
    pub part: u8,
    pub depth: u8,
    pub entry: u16,
    pub tag: u32,
    pub place: u16,
    pub length: u16,
}

/// The ported framer's state; a fresh one is all 0.
#[repr(C)]
#[derive(Default)]
pub struct PortedState {
    used: usize,
    ended: u8,
    over: u8,
}

unsafe extern "C" {
    pub fn gateway_check(dictionary: *const u8, length: usize, out: *mut Out) -> u32;
    pub fn gateway_build(
        message: *const u8,
        message_length: usize,
        separator: u8,
        settings: u32,
        dictionary: *const u8,
        dictionary_length: usize,
        records: *mut FieldRecord,
        record_count: usize,
        out: *mut Out,
    ) -> u32;
    pub fn gateway_prepared_words() -> u32;
    pub fn gateway_prepare(
        dictionary: *const u8,
        dictionary_length: usize,
        copy: *mut u8,
        copy_length: usize,
        memory: *mut u16,
        memory_count: usize,
        out: *mut Out,
    ) -> u32;
    pub fn gateway_build_prepared(
        message: *const u8,
        message_length: usize,
        separator: u8,
        settings: u32,
        copy: *const u8,
        copy_length: usize,
        memory: *const u16,
        memory_count: usize,
        records: *mut FieldRecord,
        record_count: usize,
        out: *mut Out,
    ) -> u32;
    pub fn gateway_empty(words: *mut u32, word_count: usize, values: *mut u8, value_count: usize, out: *mut Out) -> u32;
    pub fn gateway_new(
        words: *mut u32,
        word_count: usize,
        values: *mut u8,
        value_count: usize,
        begin_string: *const u8,
        begin_string_length: usize,
        message_type: *const u8,
        message_type_length: usize,
        out: *mut Out,
    ) -> u32;
    pub fn gateway_store(
        words: *mut u32,
        word_count: usize,
        values: *mut u8,
        value_count: usize,
        part: u8,
        tag: u32,
        value: *const u8,
        value_length: usize,
        out: *mut Out,
    ) -> u32;
    pub fn gateway_draft(words: *mut u32, word_count: usize, values: *mut u8, value_count: usize, out: *mut Out) -> u32;
    pub fn gateway_add_entry(
        words: *mut u32,
        word_count: usize,
        values: *mut u8,
        value_count: usize,
        start: u32,
        delimiter: u32,
        out: *mut Out,
    ) -> u32;
    pub fn gateway_store_last(
        words: *mut u32,
        word_count: usize,
        values: *mut u8,
        value_count: usize,
        tag: u32,
        value: *const u8,
        value_length: usize,
        out: *mut Out,
    ) -> u32;
    pub fn gateway_hang_last(
        words: *mut u32,
        word_count: usize,
        values: *mut u8,
        value_count: usize,
        run_words: *const u32,
        run_word_count: usize,
        run_values: *const u8,
        run_value_count: usize,
        out: *mut Out,
    ) -> u32;
    pub fn gateway_hang(
        words: *mut u32,
        word_count: usize,
        values: *mut u8,
        value_count: usize,
        part: u8,
        run_words: *const u32,
        run_word_count: usize,
        run_values: *const u8,
        run_value_count: usize,
        out: *mut Out,
    ) -> u32;
    pub fn gateway_remove(words: *mut u32, word_count: usize, values: *mut u8, value_count: usize, part: u8, tag: u32, out: *mut Out) -> u32;
    pub fn gateway_take_over(
        records: *const FieldRecord,
        record_count: usize,
        count: usize,
        message: *const u8,
        message_length: usize,
        words: *mut u32,
        word_count: usize,
        values: *mut u8,
        value_count: usize,
        out: *mut Out,
    ) -> u32;
    pub fn gateway_find_part(words: *const u32, word_count: usize, values: *const u8, value_count: usize, part: u8, out: *mut Out) -> u32;
    pub fn gateway_find_field(
        words: *const u32,
        word_count: usize,
        values: *const u8,
        value_count: usize,
        map: usize,
        tag: u32,
        out: *mut Out,
    ) -> u32;
    pub fn gateway_encode(
        words: *mut u32,
        word_count: usize,
        values: *mut u8,
        value_count: usize,
        output: *mut u8,
        output_length: usize,
        separator: u8,
        out: *mut Out,
    ) -> u32;
    pub fn gateway_ported_push(
        state: *mut PortedState,
        store: *mut u8,
        store_length: usize,
        chunk: *const u8,
        chunk_length: usize,
        out: *mut Out,
    ) -> u32;
    pub fn gateway_ported_take(
        state: *mut PortedState,
        store: *mut u8,
        store_length: usize,
        output: *mut u8,
        output_length: usize,
        out: *mut Out,
    ) -> u32;
}

pub const RECORDS: usize = 1_024;
pub const PREPARED_WORDS: usize = 96_157;
pub const WORDS: usize = 8_205;
pub const VALUES: usize = 8_192;
pub const OUTPUT: usize = 8_192;
pub const STORE: usize = 16_384;
