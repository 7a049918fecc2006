//! The functions that the static library exports (`crates/polvihe/src/lib.rt`), each declared once. A lent slice is a pointer and a
//! length.

use crate::{At, Outcome, Refusal};

/// What a call answers: the number of the question that said no, or 0, and how many records or bytes it made.
#[repr(C)]
pub struct Answered {
    number: u32,
    count: usize,
}

impl Answered {
    /// The count, where every question was answered yes.
    pub fn count(self) -> Result<usize, Refusal> {
        accepted(self.number).map(|()| self.count)
    }
}

/// What a completion answers: the number of the question that said no, or 0; the result with its completion code; whether it carries an
/// address and a cycle bit, and these; how many records it logged.
#[repr(C)]
pub struct CompletionAnswered {
    number: u32,
    result: u8,
    code: u8,
    located: u8,
    cycle_bit: u8,
    records: usize,
    address: u64,
}

impl CompletionAnswered {
    /// The number of records and how the transfer ended, where every question was answered yes.
    pub fn outcome(self) -> Result<(usize, Outcome), Refusal> {
        accepted(self.number)?;
        let at = (self.located != 0).then_some(At { address: self.address, cycle: self.cycle_bit != 0 });
        Ok((self.records, outcome(self.result, at)))
    }
}

/// A result by its number.
fn outcome(result: u8, at: Option<At>) -> Outcome {
    match result {
        0 => Outcome::Ok,
        1 => Outcome::Stall(at),
        2 => Outcome::TransactionError(at),
        3 => Outcome::Disconnect,
        _ => Outcome::TrbError,
    }
}

/// What a row of TDs answers: a completion's numbers, and how many TDs were finished well.
#[repr(C)]
pub struct RowAnswered {
    number: u32,
    result: u8,
    code: u8,
    located: u8,
    cycle_bit: u8,
    finished: usize,
    records: usize,
    address: u64,
}

impl RowAnswered {
    /// The number of records, the TDs finished well and how the row ended, where every question was answered yes.
    pub fn outcome(self) -> Result<(usize, usize, Outcome), Refusal> {
        accepted(self.number)?;
        let at = (self.located != 0).then_some(At { address: self.address, cycle: self.cycle_bit != 0 });
        Ok((self.records, self.finished, outcome(self.result, at)))
    }
}

/// A TRB by numbers, as the functions take and give it: its kind, which is xHCI's type; its flags by weight; its pointer, event data or setup bytes; its length.
#[repr(C)]
#[derive(Clone, Copy)]
pub struct TrbNumbers {
    pub kind: u8,
    pub flags: u8,
    pub transfer_length: u32,
    pub value: u64,
}

/// Whether the number of an answer is 0.
pub fn accepted(number: u32) -> Result<(), Refusal> {
    match number {
        0 => Ok(()),
        number => Err(Refusal::numbered(number).expect("every call answers 0 or the number of a question")),
    }
}

extern "C" {
    pub fn polvihe_carry_out(
        log: *const u8,
        log_length: usize,
        data: *const u8,
        data_length: usize,
        low_base: u64,
        low: *mut u8,
        low_length: usize,
        high_base: u64,
        high: *mut u8,
        high_length: usize,
    ) -> u32;

    pub fn polvihe_decode_trb(raw: *const [u8; 16]) -> TrbNumbers;

    pub fn polvihe_encode_trb(
        kind: u8,
        flags: u8,
        value: u64,
        transfer_length: u32,
        raw: *mut u8,
        raw_length: usize,
    ) -> u8;

    pub fn polvihe_in_block_length() -> usize;

    pub fn polvihe_in_create(block: *mut u8, block_length: usize, endpoint_id: u8, slot_id: u8, mode: u8) -> u32;

    pub fn polvihe_in_submit(
        log: *mut u8,
        log_length: usize,
        block: *mut u8,
        block_length: usize,
        kind: u8,
        flags: u8,
        addr: u64,
        value: u64,
        transfer_length: u32,
        low_base: u64,
        low_length: usize,
        high_base: u64,
        high_length: usize,
    ) -> Answered;

    pub fn polvihe_in_complete(
        log: *mut u8,
        log_length: usize,
        block: *mut u8,
        block_length: usize,
        status: u8,
        data_length: usize,
    ) -> CompletionAnswered;

    pub fn polvihe_in_complete_and_carry_out(
        log: *mut u8,
        log_length: usize,
        block: *mut u8,
        block_length: usize,
        status: u8,
        data: *const u8,
        data_length: usize,
        low_base: u64,
        low: *mut u8,
        low_length: usize,
        high_base: u64,
        high: *mut u8,
        high_length: usize,
    ) -> CompletionAnswered;

    pub fn polvihe_in_complete_row(
        log: *mut u8,
        log_length: usize,
        block: *const u8,
        block_length: usize,
        row: *const u8,
        row_length: usize,
        results: *const u8,
        results_length: usize,
        data_length: usize,
        low_base: u64,
        low_length: usize,
        high_base: u64,
        high_length: usize,
    ) -> RowAnswered;

    pub fn polvihe_in_cancel(block: *mut u8, block_length: usize) -> u32;

    pub fn polvihe_control_block_length() -> usize;

    pub fn polvihe_control_create(
        block: *mut u8,
        block_length: usize,
        endpoint_id: u8,
        slot_id: u8,
        release: u8,
    ) -> u32;

    pub fn polvihe_control_submit(
        log: *mut u8,
        log_length: usize,
        collect: *mut u8,
        collect_length: usize,
        block: *mut u8,
        block_length: usize,
        kind: u8,
        flags: u8,
        addr: u64,
        value: u64,
        transfer_length: u32,
        low_base: u64,
        low: *const u8,
        low_length: usize,
        high_base: u64,
        high: *const u8,
        high_length: usize,
    ) -> Answered;

    pub fn polvihe_control_submit_raw(
        log: *mut u8,
        log_length: usize,
        collect: *mut u8,
        collect_length: usize,
        block: *mut u8,
        block_length: usize,
        raw: *const [u8; 16],
        addr: u64,
        low_base: u64,
        low: *const u8,
        low_length: usize,
        high_base: u64,
        high: *const u8,
        high_length: usize,
    ) -> Answered;

    pub fn polvihe_control_complete(
        log: *mut u8,
        log_length: usize,
        block: *mut u8,
        block_length: usize,
        status: u8,
        data_length: usize,
    ) -> CompletionAnswered;

    pub fn polvihe_control_cancel(block: *const u8, block_length: usize) -> u32;

    pub fn polvihe_check_log(log: *const u8, log_length: usize) -> u32;

    pub fn polvihe_compact(log: *mut u8, log_length: usize) -> Answered;

    pub fn polvihe_line_room() -> usize;

    pub fn polvihe_print(log: *const u8, log_length: usize, text: *mut u8, text_length: usize) -> Answered;

    pub fn polvihe_converted_length(input: *const u8, input_length: usize) -> usize;

    pub fn polvihe_convert(input: *const u8, input_length: usize, output: *mut u8, output_length: usize) -> u8;

    pub fn polvihe_merged_length(
        first: *const u8,
        first_length: usize,
        second: *const u8,
        second_length: usize,
    ) -> usize;

    pub fn polvihe_merge(
        first: *const u8,
        first_length: usize,
        second: *const u8,
        second_length: usize,
        output: *mut u8,
        output_length: usize,
    ) -> u8;

    pub fn polvihe_write_file_header(output: *mut u8, output_length: usize) -> Answered;

    pub fn polvihe_write_in_submission(
        output: *mut u8,
        output_length: usize,
        bus_number: u16,
        device_address: u8,
        seconds: u32,
        microseconds: u32,
        endpoint_id: u8,
        interrupt: bool,
        id: u64,
        length: u32,
    ) -> Answered;

    pub fn polvihe_write_in_completion(
        output: *mut u8,
        output_length: usize,
        bus_number: u16,
        device_address: u8,
        seconds: u32,
        microseconds: u32,
        endpoint_id: u8,
        interrupt: bool,
        id: u64,
        status: u8,
        data: *const u8,
        data_length: usize,
    ) -> Answered;

    pub fn polvihe_write_control_submission(
        output: *mut u8,
        output_length: usize,
        bus_number: u16,
        device_address: u8,
        seconds: u32,
        microseconds: u32,
        id: u64,
        request_type: u8,
        request: u8,
        value: u16,
        index: u16,
        length: u32,
        collected: *const u8,
        collected_length: usize,
    ) -> Answered;

    pub fn polvihe_write_control_completion_in(
        output: *mut u8,
        output_length: usize,
        bus_number: u16,
        device_address: u8,
        seconds: u32,
        microseconds: u32,
        id: u64,
        data: *const u8,
        data_length: usize,
    ) -> Answered;

    pub fn polvihe_write_control_completion_out(
        output: *mut u8,
        output_length: usize,
        bus_number: u16,
        device_address: u8,
        seconds: u32,
        microseconds: u32,
        id: u64,
        length: u32,
    ) -> Answered;

    pub fn polvihe_write_control_error(
        output: *mut u8,
        output_length: usize,
        bus_number: u16,
        device_address: u8,
        seconds: u32,
        microseconds: u32,
        direction: bool,
        error: u8,
        id: u64,
        request_type: u8,
        request: u8,
        value: u16,
        index: u16,
        length: u32,
        collected: u32,
    ) -> Answered;

    pub fn polvihe_write_trb_error(
        output: *mut u8,
        output_length: usize,
        bus_number: u16,
        device_address: u8,
        seconds: u32,
        microseconds: u32,
        id: u64,
    ) -> Answered;

    pub fn polvihe_read_capture(input: *const u8, input_length: usize) -> Answered;

    pub fn polvihe_read_record(input: *const u8, input_length: usize, at: usize) -> RecordRead;
}

/// What a record of a capture gives; a status below 0 stands as 2^32 less its amount.
#[repr(C)]
pub struct RecordRead {
    pub number: u32,
    pub seconds: u32,
    pub microseconds: u32,
    pub id: u64,
    pub event_type: u8,
    pub transfer_type: u8,
    pub endpoint_address: u8,
    pub device_address: u8,
    pub bus_number: u16,
    pub setup_flag: u8,
    pub data_flag: u8,
    pub header_seconds: u64,
    pub header_microseconds: u32,
    pub status: u32,
    pub length: u32,
    pub delivered: u32,
    pub request_type: u8,
    pub request: u8,
    pub value: u16,
    pub index: u16,
    pub setup_length: u16,
    pub payload_start: usize,
    pub payload_length: usize,
    pub next: usize,
}
