//! The archive's functions as `include/ruledesk.h` declares them, and the only unsafe code: slices taken apart for the calls.

/// 01's number, how many values it carries, and these; zeros follow them.
#[repr(C)]
pub struct Answer {
    pub number: u32,
    pub count: u32,
    pub values: [u64; 15],
}

/// A part of the table.
#[repr(C)]
pub struct Part {
    pub start: usize,
    pub length: usize,
}

extern "C" {
    fn ruledesk_build(
        table: *const u8,
        table_length: usize,
        area: *mut u32,
        area_length: usize,
    ) -> Answer;
    fn ruledesk_lookup(
        table: *const u8,
        table_length: usize,
        area: *const u32,
        area_length: usize,
        header: *const u8,
        header_length: usize,
    ) -> Answer;
    fn ruledesk_pairs(
        table: *const u8,
        table_length: usize,
        list: *mut u16,
        list_length: usize,
    ) -> Answer;
    fn ruledesk_judge(
        table: *const u8,
        table_length: usize,
        order: *const u16,
        order_length: usize,
        output: *mut u8,
        output_length: usize,
    ) -> Answer;
    fn ruledesk_show(table: *const u8, table_length: usize, place: usize) -> Part;
}

// SAFETY, of each call below: the functions ask for pointers that are not null, aligned and valid for their lengths, and that what is
// written overlaps nothing else. Slices give both. They have no other precondition, and keep no pointer.

pub fn build(table: &[u8], area: &mut [u32]) -> Answer {
    unsafe { ruledesk_build(table.as_ptr(), table.len(), area.as_mut_ptr(), area.len()) }
}

pub fn lookup(table: &[u8], area: &[u32], header: &[u8]) -> Answer {
    unsafe {
        ruledesk_lookup(
            table.as_ptr(),
            table.len(),
            area.as_ptr(),
            area.len(),
            header.as_ptr(),
            header.len(),
        )
    }
}

pub fn pairs(table: &[u8], list: &mut [u16]) -> Answer {
    unsafe { ruledesk_pairs(table.as_ptr(), table.len(), list.as_mut_ptr(), list.len()) }
}

pub fn judge(table: &[u8], order: &[u16], output: &mut [u8]) -> Answer {
    unsafe {
        ruledesk_judge(
            table.as_ptr(),
            table.len(),
            order.as_ptr(),
            order.len(),
            output.as_mut_ptr(),
            output.len(),
        )
    }
}

pub fn show(table: &[u8], place: usize) -> Part {
    unsafe { ruledesk_show(table.as_ptr(), table.len(), place) }
}
