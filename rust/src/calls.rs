//! The calls as `include/berrytick.h` declares them. What it asks of a caller, Rust's references ensure: lent memory is valid, and what is
//! written to is lent once.

use crate::{Row, SESSION_BYTES, SESSION_FILE_BYTES, SESSION_SIGNATURE_BYTES};

extern "C" {
    pub fn berrytick_check(file: *const u8, file_length: usize, counts: &mut [u32; 3]) -> u32;

    pub fn berrytick_work_length(names: usize, length: &mut u32) -> u32;

    pub fn berrytick_ask(
        file: *const u8,
        file_length: usize,
        below: *const u8,
        below_length: usize,
        above: *const u8,
        above_length: usize,
        answer: &mut u32,
        work: *mut u8,
        work_length: usize,
    ) -> u32;

    pub fn berrytick_show(
        first: *const u8,
        first_length: usize,
        second: *const u8,
        second_length: usize,
        side: usize,
        name: usize,
        place: &mut [u32; 3],
    ) -> u32;

    pub fn berrytick_compare(
        first: *const u8,
        first_length: usize,
        second: *const u8,
        second_length: usize,
        signature: *const u8,
        signature_length: usize,
        result: *mut u8,
        result_length: usize,
        role_result: *mut u8,
        role_result_length: usize,
        work: *mut u8,
        work_length: usize,
    ) -> u32;

    pub fn berrytick_compare_branches(
        first: *const u8,
        first_length: usize,
        second: *const u8,
        second_length: usize,
        signatures: *const u8,
        signatures_length: usize,
        count: usize,
        rule: usize,
        work: *mut u8,
        work_length: usize,
        rows: *mut Row,
        rows_length: usize,
    ) -> u32;

    pub fn berrytick_report(
        first: *const u8,
        first_length: usize,
        second: *const u8,
        second_length: usize,
        signature: *const u8,
        signature_length: usize,
        output: *mut u8,
        output_length: usize,
        length: &mut u32,
        work: *mut u8,
        work_length: usize,
    ) -> u32;

    pub fn berrytick_page_length(result: *const u8, result_length: usize, length: &mut u32) -> u32;

    pub fn berrytick_page(
        result: *const u8,
        result_length: usize,
        output: *mut u8,
        output_length: usize,
        length: &mut u32,
    ) -> u32;

    pub fn berrytick_show_concept(
        first: *const u8,
        first_length: usize,
        second: *const u8,
        second_length: usize,
        signature: *const u8,
        signature_length: usize,
        name: usize,
        side: usize,
        rows: *mut u32,
        rows_length: usize,
        count: &mut u32,
        work: *mut u8,
        work_length: usize,
    ) -> u32;

    pub fn berrytick_check_concept(
        first: *const u8,
        first_length: usize,
        second: *const u8,
        second_length: usize,
        signature: *const u8,
        signature_length: usize,
        name: usize,
        side: usize,
        rows: *const u32,
        rows_length: usize,
        answer: &mut u32,
        work: *mut u8,
        work_length: usize,
    ) -> u32;

    pub fn berrytick_session_start(
        first: *const u8,
        first_length: usize,
        second: *const u8,
        second_length: usize,
        signature: *const u8,
        signature_length: usize,
        session: &mut [u8; SESSION_BYTES],
        work: *mut u8,
        work_length: usize,
    ) -> u32;

    pub fn berrytick_session_add(
        session: &mut [u8; SESSION_BYTES],
        side: usize,
        axiom: *const u8,
        axiom_length: usize,
        work: *mut u8,
        work_length: usize,
    ) -> u32;

    pub fn berrytick_session_withdraw(
        session: &mut [u8; SESSION_BYTES],
        side: usize,
        name: usize,
        work: *mut u8,
        work_length: usize,
    ) -> u32;

    pub fn berrytick_session_counts(session: &[u8; SESSION_BYTES], counts: &mut [u32; 2]) -> u32;

    pub fn berrytick_session_byte(session: &[u8; SESSION_BYTES], name: usize, byte: &mut u32) -> u32;

    pub fn berrytick_session_file(
        session: &[u8; SESSION_BYTES],
        side: usize,
        output: &mut [u8; SESSION_FILE_BYTES],
        length: &mut u32,
    ) -> u32;

    pub fn berrytick_session_signature(
        session: &[u8; SESSION_BYTES],
        output: &mut [u8; SESSION_SIGNATURE_BYTES],
        length: &mut u32,
    ) -> u32;

    pub fn berrytick_rewrite(
        file: *const u8,
        file_length: usize,
        wanted: usize,
        output: *mut u8,
        output_length: usize,
        length: &mut u32,
    ) -> u32;

    pub fn berrytick_practice(
        seed: u32,
        names: usize,
        roles: usize,
        output: *mut u8,
        output_length: usize,
        length: &mut u32,
    ) -> u32;
}
