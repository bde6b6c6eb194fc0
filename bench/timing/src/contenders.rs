//! Who is timed. Each judges a whole file, or a whole image, or writes a file from an image, or tidies one, in one call, and says whether
//! it accepts.

use crate::files::File;

/// What a contender is handed of a made file.
#[derive(Clone, Copy, PartialEq)]
pub enum Input {
    File,
    Foreign,
    Blanked,
    Faulty,
    Torn,
    Broken,
    Image,
}

pub struct Contender {
    pub name: &'static str,
    pub takes: Input,
    pub is_unit: bool,
    /// By how many bytes a call is timed: those that it is handed, or those that it writes.
    pub counts: fn(&[u8]) -> usize,
    pub judge: fn(&[u8]) -> bool,
}

impl Contender {
    pub fn input<'a>(&self, file: &'a File) -> &'a [u8] {
        match self.takes {
            Input::File => &file.text,
            Input::Foreign => &file.foreign,
            Input::Blanked => &file.blanked,
            Input::Faulty => &file.faulty,
            Input::Torn => &file.torn,
            Input::Broken => &file.broken,
            Input::Image => &file.image,
        }
    }

    pub fn accepts(&self, file: &File) -> bool {
        (self.judge)(self.input(file))
    }

    /// A unit that was built before need not know every kind of message and every version of an image: it is left out where it refuses one.
    pub fn takes_part(&self, file: &File) -> bool {
        !self.name.starts_with("before ") || self.accepts(file)
    }
}

/// The unit's check comes first: the others are compared with it.
pub fn all(schema: &str) -> Result<Vec<Contender>, String> {
    let mut all = units();
    all.extend([
        Contender {
            name: "independent check",
            takes: Input::File,
            is_unit: false,
            counts: <[u8]>::len,
            judge: independent_check,
        },
        Contender {
            name: "independent read",
            takes: Input::Image,
            is_unit: false,
            counts: <[u8]>::len,
            judge: |image| independent::read(image).code.number() == 0,
        },
        Contender {
            name: "independent write",
            takes: Input::Image,
            is_unit: false,
            counts: |image| independent_write(image).unwrap_or(0),
            judge: |image| independent_write(image).is_some(),
        },
    ]);
    others::add(&mut all, schema)?;
    Ok(all)
}

/// The unit, and one that was built before where there is one. A foreign root is code 4, which is found after codes 1 to 3 over the whole
/// file and before anything else. A bad value in the last text is code 12, another name in the last tag but the root's 3, a byte after the
/// root 3: each is found only at the end. A blank in that tag is no fault.
pub fn units() -> Vec<Contender> {
    use unit::{code, reads};
    #[rustfmt::skip]
    let units = vec![
        Contender { name: "unit check", takes: Input::File, is_unit: true, counts: <[u8]>::len, judge: |text| code(unit::kto_check, text) == 0 },
        Contender { name: "unit UTF-8 and scan", takes: Input::Foreign, is_unit: true, counts: <[u8]>::len, judge: |text| code(unit::kto_check, text) == 4 },
        Contender { name: "unit check, a blank in a tag", takes: Input::Blanked, is_unit: true, counts: <[u8]>::len, judge: |text| code(unit::kto_check, text) == 0 },
        Contender { name: "unit refuses a value", takes: Input::Faulty, is_unit: true, counts: <[u8]>::len, judge: |text| code(unit::kto_check, text) == 12 },
        Contender { name: "unit refuses a tag", takes: Input::Torn, is_unit: true, counts: <[u8]>::len, judge: |text| code(unit::kto_check, text) == 3 },
        Contender { name: "unit refuses an end", takes: Input::Broken, is_unit: true, counts: <[u8]>::len, judge: |text| code(unit::kto_check, text) == 3 },
        Contender { name: "unit read", takes: Input::Image, is_unit: true, counts: <[u8]>::len, judge: |image| reads(unit::kto_read, image) },
        Contender { name: "unit write", takes: Input::Image, is_unit: true, counts: unit::written, judge: unit::write },
        Contender { name: "unit tidy", takes: Input::File, is_unit: true, counts: <[u8]>::len, judge: unit::tidy },
        #[cfg(before)]
        Contender { name: "before check", takes: Input::File, is_unit: true, counts: <[u8]>::len, judge: |text| code(unit::before_check, text) == 0 },
        #[cfg(before)]
        Contender { name: "before UTF-8 and scan", takes: Input::Foreign, is_unit: true, counts: <[u8]>::len, judge: |text| code(unit::before_check, text) == 4 },
        #[cfg(before)]
        Contender { name: "before check, a blank in a tag", takes: Input::Blanked, is_unit: true, counts: <[u8]>::len, judge: |text| code(unit::before_check, text) == 0 },
        #[cfg(before)]
        Contender { name: "before refuses a value", takes: Input::Faulty, is_unit: true, counts: <[u8]>::len, judge: |text| code(unit::before_check, text) == 12 },
        #[cfg(before)]
        Contender { name: "before refuses a tag", takes: Input::Torn, is_unit: true, counts: <[u8]>::len, judge: |text| code(unit::before_check, text) == 3 },
        #[cfg(before)]
        Contender { name: "before refuses an end", takes: Input::Broken, is_unit: true, counts: <[u8]>::len, judge: |text| code(unit::before_check, text) == 3 },
        #[cfg(before)]
        Contender { name: "before read", takes: Input::Image, is_unit: true, counts: <[u8]>::len, judge: |image| reads(unit::before_read, image) },
    ];
    units
}

fn independent_check(text: &[u8]) -> bool {
    // An image is never longer than its file.
    let mut image = vec![0; text.len()];
    independent::check(text, &mut image).code.number() == 0
}

/// The length of the file; none where the image is refused.
fn independent_write(image: &[u8]) -> Option<usize> {
    let answer = independent::write(image, &mut vec![0; independent::LIMIT]);
    (answer.code.number() == 0).then_some(answer.place)
}

/// The unit, by its C exports (include/kto.h).
mod unit {
    use std::cell::RefCell;

    type Check = unsafe extern "C" fn(*const u8, usize, *mut u8, usize, *mut u64, *mut u64) -> u64;
    type Read = unsafe extern "C" fn(*const u8, usize, *mut u64) -> u64;

    #[rustfmt::skip]
    extern "C" {
        pub fn kto_check(input: *const u8, input_len: usize, out: *mut u8, out_len: usize, row: *mut u64, place: *mut u64) -> u64;
        pub fn kto_read(run: *const u8, run_len: usize, place: *mut u64) -> u64;
        fn kto_write(run: *const u8, run_len: usize, out: *mut u8, out_len: usize, row: *mut u64, place: *mut u64) -> u64;
        fn kto_tidy(input: *const u8, input_len: usize, image: *mut u8, image_len: usize, out: *mut u8, out_len: usize, row: *mut u64, place: *mut u64) -> u64;
    }

    #[cfg(before)]
    #[rustfmt::skip]
    extern "C" {
        pub fn before_check(input: *const u8, input_len: usize, out: *mut u8, out_len: usize, row: *mut u64, place: *mut u64) -> u64;
        pub fn before_read(run: *const u8, run_len: usize, place: *mut u64) -> u64;
    }

    // Lent to every call, so that no sample pays for making them.
    thread_local! {
        static IMAGE: RefCell<Vec<u8>> = RefCell::new(vec![0; independent::LIMIT]);
        static OUT: RefCell<Vec<u8>> = RefCell::new(vec![0; independent::LIMIT]);
    }

    pub fn code(check: Check, text: &[u8]) -> u64 {
        OUT.with_borrow_mut(|out| {
            let (mut row, mut place) = (0, 0);
            // SAFETY: the lengths are those of the slices, and the two numbers live on this stack.
            unsafe { check(text.as_ptr(), text.len(), out.as_mut_ptr(), out.len(), &mut row, &mut place) }
        })
    }

    pub fn reads(read: Read, image: &[u8]) -> bool {
        let mut place = 0;
        // SAFETY: as above.
        unsafe { read(image.as_ptr(), image.len(), &mut place) == 0 && place == image.len() as u64 }
    }

    /// The length of the file that is written from an image; none where it is refused.
    fn file_length(image: &[u8]) -> Option<usize> {
        OUT.with_borrow_mut(|out| {
            let (mut row, mut place) = (0, 0);
            // SAFETY: as above.
            let code =
                unsafe { kto_write(image.as_ptr(), image.len(), out.as_mut_ptr(), out.len(), &mut row, &mut place) };
            (code == 0).then_some(place as usize)
        })
    }

    pub fn write(image: &[u8]) -> bool {
        file_length(image).is_some()
    }

    pub fn written(image: &[u8]) -> usize {
        file_length(image).unwrap_or(0)
    }

    pub fn tidy(text: &[u8]) -> bool {
        IMAGE.with_borrow_mut(|image| {
            OUT.with_borrow_mut(|out| {
                let ((image, image_len), (out, out_len)) =
                    ((image.as_mut_ptr(), image.len()), (out.as_mut_ptr(), out.len()));
                let (mut row, mut place) = (0, 0);
                // SAFETY: as above.
                unsafe {
                    kto_tidy(text.as_ptr(), text.len(), image, image_len, out, out_len, &mut row, &mut place) == 0
                }
            })
        })
    }
}

#[cfg(others)]
mod others {
    use super::{Contender, Input};
    use std::ffi::{c_char, c_int};
    use std::fs;

    extern "C" {
        fn others_schema(of_reports: c_int, text: *const c_char, length: usize) -> c_int;
        fn others_expat(file: *const u8, length: usize) -> c_int;
        fn others_tree(file: *const u8, length: usize) -> c_int;
        fn others_stream(file: *const u8, length: usize) -> c_int;
    }

    pub fn add(all: &mut Vec<Contender>, schema: &str) -> Result<(), String> {
        let of_statements = fs::read_to_string(schema).map_err(|error| format!("{schema}: {error}"))?;
        for (number, text) in [&of_statements, &of_reports(&of_statements)?].into_iter().enumerate() {
            // SAFETY: the length is that of the text, which lives until the call is over; the same of the files below.
            if unsafe { others_schema(number as c_int, text.as_ptr().cast(), text.len()) } == 0 {
                return Err(format!("the schema {schema}, number {number}, can't be read"));
            }
        }
        all.push(Contender {
            name: "expat",
            takes: Input::File,
            is_unit: false,
            counts: <[u8]>::len,
            judge: |file| unsafe { others_expat(file.as_ptr(), file.len()) == 1 },
        });
        all.push(Contender {
            name: "libxml2 schema, tree",
            takes: Input::File,
            is_unit: false,
            counts: <[u8]>::len,
            judge: |file| unsafe { others_tree(file.as_ptr(), file.len()) == 1 },
        });
        all.push(Contender {
            name: "libxml2 schema, stream",
            takes: Input::File,
            is_unit: false,
            counts: <[u8]>::len,
            judge: |file| unsafe { others_stream(file.as_ptr(), file.len()) == 1 },
        });
        Ok(())
    }

    /// The schema of reports, from that of statements: "Root child BkToCstmrAcctRpt with Rpt in place of Stmt .., Bal 0..n with OPBD, CLBD,
    /// PRCD, ITBD, Sts codes BOOK and PDNG, the rest of the house list as it is."
    fn of_reports(schema: &str) -> Result<String, String> {
        let changes = [
            ("camt.053.001.08", "camt.052.001.08"),
            ("name=\"BkToCstmrStmt\"", "name=\"BkToCstmrAcctRpt\""),
            ("name=\"Stmt\"", "name=\"Rpt\""),
            ("name=\"Bal\" ", "name=\"Bal\" minOccurs=\"0\" "),
            ("<xs:enumeration value=\"PRCD\"/>", "<xs:enumeration value=\"PRCD\"/><xs:enumeration value=\"ITBD\"/>"),
            ("<xs:enumeration value=\"BOOK\"/>", "<xs:enumeration value=\"BOOK\"/><xs:enumeration value=\"PDNG\"/>"),
        ];
        changes.iter().try_fold(schema.to_string(), |text, (old, new)| match text.contains(old) {
            true => Ok(text.replace(old, new)),
            false => Err(format!("{old} is missing in the schema")),
        })
    }
}

#[cfg(not(others))]
mod others {
    pub fn add(_: &mut Vec<super::Contender>, _: &str) -> Result<(), String> {
        Ok(())
    }
}
