//! The route planner for programs in Rust: what `deqibur.h`, beside this file, declares for C, and safe functions around it. The header
//! says what every field, code and function means. A program takes this file in as a module, and links the archives `embed` and `libc_c`.
//!
//! Nothing checks these declarations against the source; `examples/embed/run` builds and runs a program that uses each of them.
#![allow(dead_code)]

#[repr(C)]
#[derive(Clone, Copy, Debug, PartialEq, Eq)]
pub struct SheetCheck {
    pub plans: u64,
    pub line: u64,
    pub sites: u16,
    pub legs: u16,
    pub number: u8,
}

#[repr(C)]
#[derive(Clone, Copy, Debug, PartialEq, Eq)]
pub struct Request {
    pub labels: usize,
    pub limit: u32,
    pub steps: u32,
    pub start: u16,
    pub goal: u16,
}

#[repr(C)]
#[derive(Clone, Copy, Debug, PartialEq, Eq)]
pub struct Answer {
    pub steps: u64,
    pub cost: u64,
    pub line: u64,
    pub legs: usize,
    pub delay: u32,
    pub outcome: u8,
    pub number: u8,
}

#[repr(C)]
#[derive(Clone, Copy, Debug, PartialEq, Eq)]
pub struct Allowance {
    pub sites: usize,
    pub legs: usize,
    pub labels: usize,
    pub steps: u32,
}

#[repr(C)]
#[derive(Clone, Copy, Debug, PartialEq, Eq)]
pub struct Written {
    pub length: usize,
    pub code: u8,
}

#[link(name = "embed", kind = "static")]
#[link(name = "libc_c", kind = "static")]
extern "C" {
    fn deqibur_check_sheet(sheet: *const u8, sheet_len: usize) -> SheetCheck;
    fn deqibur_plan_sheet(
        sheet: *const u8,
        sheet_len: usize,
        allowance: *const Allowance,
        output: *mut u8,
        output_len: usize,
    ) -> Written;
    fn deqibur_serve(
        sheet: *const u8,
        sheet_len: usize,
        request: *const Request,
        legs: *mut u16,
        legs_len: usize,
    ) -> Answer;
    fn deqibur_serve_again(
        sheet: *const u8,
        sheet_len: usize,
        request: *const Request,
        again: u32,
    ) -> Answer;
}

/// What a sheet has, or its first refusal.
pub fn check_sheet(sheet: &[u8]) -> SheetCheck {
    // SAFETY: the pointer leads to so many bytes for the time of the call.
    unsafe { deqibur_check_sheet(sheet.as_ptr(), sheet.len()) }
}

/// The text that answers a sheet, at the start of the output.
pub fn plan_sheet(sheet: &[u8], allowance: &Allowance, output: &mut [u8]) -> Written {
    // SAFETY: the pointers lead to what they are declared to for the time of the call, and a `&mut` overlaps nothing.
    unsafe {
        deqibur_plan_sheet(
            sheet.as_ptr(),
            sheet.len(),
            allowance,
            output.as_mut_ptr(),
            output.len(),
        )
    }
}

/// What a request over the network of a sheet comes to, and the legs of its route, at the start of the buffer.
pub fn serve(sheet: &[u8], request: &Request, legs: &mut [u16]) -> Answer {
    // SAFETY: the pointers lead to what they are declared to for the time of the call, and a `&mut` overlaps nothing.
    unsafe {
        deqibur_serve(
            sheet.as_ptr(),
            sheet.len(),
            request,
            legs.as_mut_ptr(),
            legs.len(),
        )
    }
}

/// What it comes to once it was served so many times for nothing.
pub fn serve_again(sheet: &[u8], request: &Request, again: u32) -> Answer {
    // SAFETY: both pointers lead to what they are declared to for the time of the call.
    unsafe { deqibur_serve_again(sheet.as_ptr(), sheet.len(), request, again) }
}
