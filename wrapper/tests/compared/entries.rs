//! The library's functions for each form, beside the interpreter's name of the
//! form. The comparison uses them, and bench/ does.

use clight::{Refusal, Run, Tables};
use interpreter::Form::{self, Kernel, Source};

type Check = fn(&[i32], &[i32]) -> Result<(), Refusal>;
type RunOn = fn(&[i32], &[i32], &mut [i32], u32) -> Result<Run, Refusal>;
type Read = fn(&[u8], &mut [i32], &mut [i32]) -> Result<Tables, Refusal>;
type Write = fn(&[i32], &[i32], &mut [u8]) -> Result<usize, Refusal>;

pub struct Entries {
    pub form: Form,
    pub check: Check,
    pub run: RunOn,
    pub read: Read,
    pub write: Write,
}

pub const SOURCE: Entries = Entries {
    form: Source,
    check: clight::check,
    run: clight::run,
    read: clight::read_source,
    write: clight::write_source,
};

pub const KERNEL: Entries = Entries {
    form: Kernel,
    check: clight::kernel_check,
    run: clight::kernel_run,
    read: clight::read_kernel,
    write: clight::write_kernel,
};
