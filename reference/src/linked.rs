//! The verified library behind its C interface.

#![allow(unsafe_code)]

use crate::answer::{Answer, Verdict};
use crate::call::Engine;
use crate::edition::Edition;
use crate::rule::Rule;

/// The functions that read or write a witness are there once for each edition.
macro_rules! of_each_edition {
    ($validate:ident, $validate_rule:ident, $check:ident, $check_rule:ident, $rewrite_witness:ident) => {
        extern "C" {
            fn $validate(
                table: *const u8,
                table_length: usize,
                recording: *const u8,
                recording_length: usize,
                budget: u32,
                scratch: *mut u8,
                scratch_length: usize,
                room: *mut u8,
                room_length: usize,
            ) -> Verdict;
            fn $validate_rule(
                table: *const u8,
                table_length: usize,
                recording: *const u8,
                recording_length: usize,
                budget: u32,
                device: u8,
                window: u8,
                most: u8,
                scratch: *mut u8,
                scratch_length: usize,
                room: *mut u8,
                room_length: usize,
            ) -> Verdict;
            fn $check(
                table: *const u8,
                table_length: usize,
                recording: *const u8,
                recording_length: usize,
                witness: *const u8,
                witness_length: usize,
            ) -> Answer;
            fn $check_rule(
                table: *const u8,
                table_length: usize,
                recording: *const u8,
                recording_length: usize,
                witness: *const u8,
                witness_length: usize,
                device: u8,
                window: u8,
                most: u8,
            ) -> Answer;
            fn $rewrite_witness(
                bytes: *const u8,
                length: usize,
                room: *mut u8,
                room_length: usize,
            ) -> Answer;
        }
    };
}

of_each_edition!(
    lutarosa_validate,
    lutarosa_validate_rule,
    lutarosa_check,
    lutarosa_check_rule,
    lutarosa_rewrite_witness
);
of_each_edition!(
    lutarosa_validate_edition2,
    lutarosa_validate_rule_edition2,
    lutarosa_check_edition2,
    lutarosa_check_rule_edition2,
    lutarosa_rewrite_witness_edition2
);

extern "C" {
    fn lutarosa_rewrite_table(
        bytes: *const u8,
        length: usize,
        room: *mut u8,
        room_length: usize,
    ) -> Answer;
    fn lutarosa_rewrite_recording(
        table: *const u8,
        table_length: usize,
        bytes: *const u8,
        length: usize,
        room: *mut u8,
        room_length: usize,
    ) -> Answer;
}

/// The folder that the library was linked from.
pub const FOLDER: &str = env!("LUTAROSA_LINKED_FROM");

pub const VERIFIED: Engine = Engine {
    validate,
    validate_rule,
    check,
    check_rule,
    rewrite_table,
    rewrite_recording,
    rewrite_witness,
};

// Each call lends whole slices that do not overlap and outlive it; the library keeps none.

macro_rules! validating {
    ($name:ident($($rule:ident)?), $one:ident, $two:ident) => {
        fn $name(
            edition: Edition,
            $($rule: Rule,)?
            table: &[u8],
            recording: &[u8],
            budget: u32,
            scratch: &mut [u8],
            room: &mut [u8],
        ) -> Verdict {
            let function = match edition {
                Edition::One => $one,
                Edition::Two => $two,
            };
            unsafe {
                function(
                    table.as_ptr(),
                    table.len(),
                    recording.as_ptr(),
                    recording.len(),
                    budget,
                    $($rule.device, $rule.window, $rule.most,)?
                    scratch.as_mut_ptr(),
                    scratch.len(),
                    room.as_mut_ptr(),
                    room.len(),
                )
            }
        }
    };
}

validating!(validate(), lutarosa_validate, lutarosa_validate_edition2);
validating!(validate_rule(rule), lutarosa_validate_rule, lutarosa_validate_rule_edition2);

macro_rules! checking {
    ($name:ident($($rule:ident)?), $one:ident, $two:ident) => {
        fn $name(
            edition: Edition,
            $($rule: Rule,)?
            table: &[u8],
            recording: &[u8],
            witness: &[u8],
        ) -> Answer {
            let function = match edition {
                Edition::One => $one,
                Edition::Two => $two,
            };
            unsafe {
                function(
                    table.as_ptr(),
                    table.len(),
                    recording.as_ptr(),
                    recording.len(),
                    witness.as_ptr(),
                    witness.len(),
                    $($rule.device, $rule.window, $rule.most,)?
                )
            }
        }
    };
}

checking!(check(), lutarosa_check, lutarosa_check_edition2);
checking!(check_rule(rule), lutarosa_check_rule, lutarosa_check_rule_edition2);

fn rewrite_table(bytes: &[u8], room: &mut [u8]) -> Answer {
    unsafe { lutarosa_rewrite_table(bytes.as_ptr(), bytes.len(), room.as_mut_ptr(), room.len()) }
}

fn rewrite_recording(table: &[u8], bytes: &[u8], room: &mut [u8]) -> Answer {
    unsafe {
        lutarosa_rewrite_recording(
            table.as_ptr(),
            table.len(),
            bytes.as_ptr(),
            bytes.len(),
            room.as_mut_ptr(),
            room.len(),
        )
    }
}

fn rewrite_witness(edition: Edition, bytes: &[u8], room: &mut [u8]) -> Answer {
    let function = match edition {
        Edition::One => lutarosa_rewrite_witness,
        Edition::Two => lutarosa_rewrite_witness_edition2,
    };
    unsafe { function(bytes.as_ptr(), bytes.len(), room.as_mut_ptr(), room.len()) }
}
