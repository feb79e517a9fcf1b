//! A safe wrapper over the proved core, which is linked as a static library: the declarations of
//! include/yoltsjer.h, and a function over each. include/yoltsjer.h says what the calls do.
#![allow(dead_code)]

#[repr(C)]
#[derive(Clone, Copy, Default, PartialEq, Eq, Debug)]
pub struct Answer {
    pub line: u64,
    pub place: u64,
    pub length: u64,
    pub lines: u64,
}

unsafe extern "C" {
    fn yoltsjer_check_list(list: *const u8, list_len: usize, answer: *mut Answer) -> u32;
    fn yoltsjer_import_list(
        list: *const u8,
        list_len: usize,
        out: *mut u8,
        out_len: usize,
        answer: *mut Answer,
    ) -> u32;
    fn yoltsjer_check_book(book: *const u8, book_len: usize, answer: *mut Answer) -> u32;
    fn yoltsjer_export_book(
        book: *const u8,
        book_len: usize,
        out: *mut u8,
        out_len: usize,
        answer: *mut Answer,
    ) -> u32;
    fn yoltsjer_plan(
        book: *const u8,
        book_len: usize,
        etb_counter: u32,
        formation: *const u8,
        formation_len: usize,
        claimed: *const u8,
        claimed_len: usize,
        vehicle: u8,
        direction: u8,
        confirmed: *const u8,
        confirmed_len: usize,
        out: *mut u8,
        out_len: usize,
        answer: *mut Answer,
    ) -> u32;
}

/// What a call answered: its status, 0 or the refusal's number, and the rest.
#[derive(Clone, Copy, PartialEq, Eq, Debug)]
pub struct Told {
    pub status: u32,
    pub answer: Answer,
}

impl Told {
    /// The answer of a call that was carried out, or what was told of its refusal.
    pub fn carried_out(self) -> Result<Answer, Told> {
        if self.status == 0 { Ok(self.answer) } else { Err(self) }
    }
}

/// Calls with an answer to write into. What it holds before is of no matter: all of it is written.
fn told(call: impl FnOnce(*mut Answer) -> u32) -> Told {
    let mut answer = Answer {
        line: u64::MAX,
        place: u64::MAX,
        length: u64::MAX,
        lines: u64::MAX,
    };
    let status = call(&mut answer);
    Told { status, answer }
}

/// Checks a fleet list, and tells the length of its book.
pub fn check_list(list: &[u8]) -> Told {
    told(|answer| unsafe { yoltsjer_check_list(list.as_ptr(), list.len(), answer) })
}

/// Writes the book of a fleet list at the front of `out`.
pub fn import_list(list: &[u8], out: &mut [u8]) -> Told {
    told(|answer| unsafe {
        yoltsjer_import_list(list.as_ptr(), list.len(), out.as_mut_ptr(), out.len(), answer)
    })
}

/// Checks a book, and tells the length of its fleet list.
pub fn check_book(book: &[u8]) -> Told {
    told(|answer| unsafe { yoltsjer_check_book(book.as_ptr(), book.len(), answer) })
}

/// Writes the fleet list of a book at the front of `out`.
pub fn export_book(book: &[u8], out: &mut [u8]) -> Told {
    told(|answer| unsafe {
        yoltsjer_export_book(book.as_ptr(), book.len(), out.as_mut_ptr(), out.len(), answer)
    })
}

/// A formation and what is claimed and confirmed on it, as bytes.
#[derive(Clone, Copy, Default)]
pub struct Train<'a> {
    pub etb_counter: u32,
    /// 17 bytes an entry: identity and facing.
    pub formation: &'a [u8],
    /// The identity of the claimed consist, or nothing.
    pub claimed: &'a [u8],
    pub vehicle: u8,
    pub direction: u8,
    /// 16 bytes a name, or nothing.
    pub confirmed: &'a [u8],
}

/// Writes the composition of a train over a book at the front of `out`.
pub fn plan(book: &[u8], train: &Train<'_>, out: &mut [u8]) -> Told {
    told(|answer| unsafe {
        yoltsjer_plan(
            book.as_ptr(),
            book.len(),
            train.etb_counter,
            train.formation.as_ptr(),
            train.formation.len(),
            train.claimed.as_ptr(),
            train.claimed.len(),
            train.vehicle,
            train.direction,
            train.confirmed.as_ptr(),
            train.confirmed.len(),
            out.as_mut_ptr(),
            out.len(),
            answer,
        )
    })
}
