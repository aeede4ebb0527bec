//! How deep a step, a recorded step and a step of the second engine through the C library go in a case, or a comparison in one of notebooks.rs:
//! the most bytes below their caller's that one call writes to, of each. The calls are made on a stack of their own, which is filled with one
//! number before each.

#[allow(dead_code)]
mod cases;
#[allow(dead_code)]
#[path = "../clients/rust/src/ffi.rs"]
mod ffi;
mod notebooks;
#[allow(dead_code)]
#[path = "../clients/rust/src/raw.rs"]
mod raw;
mod tables;

use notebooks::Case;
use raw::Comparison;
use std::arch::asm;

const FILLING: u64 = 0x5a0f_a5f0_5a0f_a5f0;

/// The numbers that a call may write to, twice as many as any of the library's needs but those that run recordings; above them its
/// caller's part starts.
const FREE: usize = 4096;

/// The five last are arguments for which C has no register.
#[repr(align(16))]
struct Stack([u64; FREE + 5]);

/// Makes a call of C. Its answer goes where the first of its arguments says; the others are given, ten at most.
fn depth(stack: &mut Stack, function: *const (), answer: &mut [u64; 3], arguments: &[u64]) -> usize {
    let mut given = [0; 10];
    given[..arguments.len()].copy_from_slice(arguments);
    stack.0[..FREE].fill(FILLING);
    stack.0[FREE..].copy_from_slice(&given[5..]);
    unsafe {
        asm!(
            "mov r12, rsp",
            "mov rsp, {caller}",
            "call {function}",
            "mov rsp, r12",
            caller = in(reg) stack.0.as_mut_ptr().add(FREE),
            function = in(reg) function,
            in("rdi") answer,
            in("rsi") given[0],
            in("rdx") given[1],
            in("rcx") given[2],
            in("r8") given[3],
            in("r9") given[4],
            out("r12") _,
            clobber_abi("C"),
        );
    }
    let untouched = stack.0.iter().take_while(|&&number| number == FILLING).count();
    size_of_val(&stack.0[untouched..FREE])
}

fn lent(numbers: &mut [u64]) -> [u64; 2] {
    [numbers.as_mut_ptr() as u64, numbers.len() as u64]
}

/// Prints the depth of each of the three steps.
fn step(stack: &mut Stack, case: u64) {
    let (mut stepped, mut recorded, mut summary) = (tables::table_of(case), tables::table_of(case), [0; raw::SUMMARY]);
    let mut deadlines = tables::deadlines_of(case);
    let (mut step, mut record, mut second) = (0, 0, 0);
    cases::run(case, |[act, window, moment]| {
        let (mut answer, mut answer_recorded, mut answer_second) = ([0; 3], [0; 3], [0; 3]);
        let [table, length] = lent(&mut stepped);
        let given = [table, length, act, window, moment];
        step = step.max(depth(stack, ffi::funnelfawn_step as *const (), &mut answer, &given));
        let ([table, length], [counts, size]) = (lent(&mut recorded), lent(&mut summary));
        let given = [table, length, counts, size, act, window, moment];
        record = record.max(depth(stack, ffi::funnelfawn_record as *const (), &mut answer_recorded, &given));
        let [table, length] = lent(&mut deadlines);
        let given = [table, length, act, window, moment];
        second = second.max(depth(stack, ffi::funnelfawn_step_deadlines as *const (), &mut answer_second, &given));
        assert_eq!(answer, answer_recorded);
        assert_eq!(answer, answer_second);
        answer
    });
    println!("{step} {record} {second}");
}

/// Prints the depth of a comparison.
fn compare(stack: &mut Stack) {
    let Case { mut till, mut kept, e } = notebooks::chosen_case();
    let mut compared = 0;
    notebooks::run(|d| {
        let mut answer = [0; 3];
        let lists = [&mut till.moments, &mut till.acts, &mut kept.moments, &mut kept.acts].map(|list| lent(list));
        let given = [lists.as_flattened(), &[d, e]].concat();
        compared = compared.max(depth(stack, ffi::funnelfawn_compare_logs as *const (), &mut answer, &given));
        let Comparison { number, window, shift } =
            raw::compare_logs(&till.moments, &till.acts, &kept.moments, &kept.acts, d, e);
        assert_eq!(answer, [number, window, shift as u64]);
        answer
    });
    println!("{compared}");
}

fn main() {
    let mut stack = Stack([0; FREE + 5]);
    match cases::chosen() {
        301.. => compare(&mut stack),
        case => step(&mut stack, case),
    }
}
