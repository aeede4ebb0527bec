//! The functions of include/funnelfawn.h, in its order.

use crate::raw::{Answer, Comparison, Reading, Told};

extern "C" {
    pub fn funnelfawn_layout() -> u64;

    pub fn funnelfawn_fresh(
        n: u64,
        b: u64,
        c: u64,
        a: *const u64,
        a_length: usize,
        table: *mut u64,
        table_length: usize,
    ) -> Answer;

    pub fn funnelfawn_step(
        table: *mut u64,
        table_length: usize,
        act: u64,
        window: u64,
        moment: u64,
    ) -> Answer;

    pub fn funnelfawn_new_summary(summary: *mut u64, summary_length: usize) -> Answer;

    pub fn funnelfawn_record(
        table: *mut u64,
        table_length: usize,
        summary: *mut u64,
        summary_length: usize,
        act: u64,
        window: u64,
        moment: u64,
    ) -> Answer;

    pub fn funnelfawn_set_up_board(w: u64, board: *mut u64, board_length: usize) -> Answer;

    pub fn funnelfawn_add_to_board(
        board: *mut u64,
        board_length: usize,
        moment: u64,
        window: u64,
        wait: u64,
    ) -> Answer;

    pub fn funnelfawn_show_board(board: *mut u64, board_length: usize, clock: u64) -> Answer;

    pub fn funnelfawn_record_and_tell(
        table: *mut u64,
        table_length: usize,
        summary: *mut u64,
        summary_length: usize,
        board: *mut u64,
        board_length: usize,
        act: u64,
        window: u64,
        moment: u64,
    ) -> Told;

    pub fn funnelfawn_fresh_deadlines(
        n: u64,
        b: u64,
        c: u64,
        a: *const u64,
        a_length: usize,
        deadlines: *mut u64,
        deadlines_length: usize,
    ) -> Answer;

    pub fn funnelfawn_step_deadlines(
        deadlines: *mut u64,
        deadlines_length: usize,
        act: u64,
        window: u64,
        moment: u64,
    ) -> Answer;

    pub fn funnelfawn_to_deadlines(
        table: *const u64,
        table_length: usize,
        deadlines: *mut u64,
        deadlines_length: usize,
    ) -> Answer;

    pub fn funnelfawn_to_arrivals(
        deadlines: *const u64,
        deadlines_length: usize,
        table: *mut u64,
        table_length: usize,
    ) -> Answer;

    pub fn funnelfawn_read(
        text: *const u8,
        text_length: usize,
        a: *mut u64,
        a_length: usize,
        moments: *mut u64,
        moments_length: usize,
        windows: *mut u64,
        windows_length: usize,
        acts: *mut u64,
        acts_length: usize,
    ) -> Reading;

    pub fn funnelfawn_write(
        n: u64,
        b: u64,
        c: u64,
        a: *const u64,
        a_length: usize,
        moments: *const u64,
        moments_length: usize,
        windows: *const u64,
        windows_length: usize,
        acts: *const u64,
        acts_length: usize,
        out: *mut u8,
        out_length: usize,
    ) -> Answer;

    pub fn funnelfawn_replay(text: *const u8, text_length: usize, out: *mut u8, out_length: usize) -> Answer;

    pub fn funnelfawn_spans(text: *const u8, text_length: usize, out: *mut u8, out_length: usize) -> Answer;

    pub fn funnelfawn_accepted_acts(
        text: *const u8,
        text_length: usize,
        window: u64,
        moments: *mut u64,
        moments_length: usize,
        acts: *mut u64,
        acts_length: usize,
    ) -> Answer;

    pub fn funnelfawn_compare_logs(
        till_moments: *const u64,
        till_moments_length: usize,
        till_acts: *const u64,
        till_acts_length: usize,
        box_moments: *const u64,
        box_moments_length: usize,
        box_acts: *const u64,
        box_acts_length: usize,
        d: u64,
        e: u64,
    ) -> Comparison;
}
