//! The C face over the reader of query text, as include/mireladle_text.h tells it: a text goes in,
//! and out come the query's bytes, the names of the columns and the titles of the measures, or the
//! line, the column and the words of the fault. The length of the text is judged first. No panic
//! crosses it: what would be one is told as a fault. All `unsafe` code of this package stands here:
//! it reads what the caller points at, as the header asks of him. Tested in rust/tests/c_text.rs.

use std::ffi::{c_char, CString};
use std::panic::{catch_unwind, AssertUnwindSafe};

use mireladle::text::{self, cells, Fault, QueryText};

/// The most bytes of a text, and of a cell.
const LONGEST: usize = 1 << 20;

/// What was read of a text.
pub struct Text {
    query: Vec<u8>,
    columns: Vec<CString>,
    titles: Vec<CString>,
    warnings: Vec<CString>,
    read: Option<QueryText>,
    fault: Option<(usize, usize, CString)>,
}

impl Text {
    /// A text that was not read, and why.
    fn wrong(line: usize, column: usize, message: &str) -> Text {
        Text {
            query: Vec::new(),
            columns: Vec::new(),
            titles: Vec::new(),
            warnings: Vec::new(),
            read: None,
            fault: Some((line, column, c_string(message))),
        }
    }

    fn of_fault(fault: &Fault) -> Text {
        let (expected, found) = (&fault.expected, &fault.found);
        let message = format!("expected {expected}, found {found}");
        Text::wrong(fault.line, fault.column, &message)
    }

    fn of_query(read: QueryText) -> Text {
        let query = match read.build() {
            Ok(query) => query.as_bytes().to_vec(),
            Err(fault) => return Text::of_fault(&fault),
        };
        let warning = |it: &text::Warning| format!("{}:{}: {}", it.line, it.column, it.message);
        Text {
            query,
            columns: read.columns.iter().map(|it| c_string(&it.name)).collect(),
            titles: read.titles.iter().map(|it| c_string(it)).collect(),
            warnings: read
                .warnings
                .iter()
                .map(|it| c_string(&warning(it)))
                .collect(),
            read: Some(read),
            fault: None,
        }
    }
}

/// A text for C, without control characters, which would upset a screen.
fn c_string(text: &str) -> CString {
    CString::new(text::screen::visible(text)).unwrap_or_default()
}

/// The bytes at a pointer; none where there is no pointer to some, or too many.
///
/// # Safety
///
/// The pointer is null or points at so many bytes.
#[allow(unsafe_code)]
unsafe fn bytes<'a>(pointer: *const c_char, length: usize) -> Option<&'a [u8]> {
    if length == 0 {
        return Some(&[]);
    }
    if pointer.is_null() || length > LONGEST {
        return None;
    }
    // SAFETY: as the caller promises.
    Some(unsafe { std::slice::from_raw_parts(pointer.cast::<u8>(), length) })
}

/// Reads a text. See the header.
///
/// # Safety
///
/// The pointer is null or points at so many bytes, which nobody changes meanwhile.
#[no_mangle]
#[allow(unsafe_code)]
pub unsafe extern "C" fn mireladle_text_read(text: *const c_char, length: usize) -> *mut Text {
    if length > LONGEST {
        let message = "expected a text of at most 1048576 bytes, found more";
        return Box::into_raw(Box::new(Text::wrong(1, 1, message)));
    }
    // SAFETY: as the caller promises.
    let bytes = unsafe { bytes(text, length) };
    let read = catch_unwind(AssertUnwindSafe(|| read(bytes)));
    let text = read.unwrap_or_else(|_| Text::wrong(1, 1, "the reader of texts failed"));
    Box::into_raw(Box::new(text))
}

fn read(bytes: Option<&[u8]>) -> Text {
    let Some(bytes) = bytes else {
        return Text::wrong(1, 1, "expected a text, found a null pointer");
    };
    let plain = bytes.strip_prefix(b"\xEF\xBB\xBF").unwrap_or(bytes);
    let source = match std::str::from_utf8(plain) {
        Ok(source) => source,
        Err(error) => {
            let front = plain.get(..error.valid_up_to()).unwrap_or(&[]);
            let front = format!("{}?", String::from_utf8_lossy(front));
            let line = text::lines(&front).count();
            let last = text::lines(&front).last().unwrap_or("");
            let message = "expected text in UTF-8, found a byte that is none";
            return Text::wrong(line, last.chars().count(), message);
        }
    };
    match text::read(source) {
        Ok(read) => Text::of_query(read),
        Err(fault) => Text::of_fault(&fault),
    }
}

/// Gives a text back. See the header.
///
/// # Safety
///
/// The pointer is null or one that `mireladle_text_read` gave and that was not given back yet.
#[no_mangle]
#[allow(unsafe_code)]
pub unsafe extern "C" fn mireladle_text_free(text: *mut Text) {
    if !text.is_null() {
        // SAFETY: as the caller promises.
        let _ = catch_unwind(AssertUnwindSafe(|| drop(unsafe { Box::from_raw(text) })));
    }
}

/// What a function says of a text, or this where there is none.
///
/// # Safety
///
/// The pointer is null or one that `mireladle_text_read` gave and that was not given back yet.
#[allow(unsafe_code)]
unsafe fn of<T>(text: *const Text, none: T, say: impl FnOnce(&Text) -> T) -> T {
    // SAFETY: as the caller promises.
    match unsafe { text.as_ref() } {
        Some(text) => say(text),
        None => none,
    }
}

/// The functions that say something of a text that was read. Each is safe for a pointer that is
/// null or that `mireladle_text_read` gave and that was not given back yet.
macro_rules! says {
    ($($name:ident($($argument:ident: $type:ty),*) -> $result:ty, $none:expr, $say:expr;)*) => {$(
        /// See the header.
        ///
        /// # Safety
        ///
        /// The pointer is null or one that `mireladle_text_read` gave and that was not given back
        /// yet.
        #[no_mangle]
        #[allow(unsafe_code)]
        pub unsafe extern "C" fn $name(text: *const Text $(, $argument: $type)*) -> $result {
            // SAFETY: as the caller promises.
            unsafe { of(text, $none, $say) }
        }
    )*};
}

/// The pointer to a string of a list; null where the list has none there.
fn item(list: &[CString], index: usize) -> *const c_char {
    list.get(index).map_or(std::ptr::null(), |it| it.as_ptr())
}

says! {
    mireladle_text_fault_line() -> usize, 0, |text| text.fault.as_ref().map_or(0, |it| it.0);
    mireladle_text_fault_column() -> usize, 0, |text| text.fault.as_ref().map_or(0, |it| it.1);
    mireladle_text_fault() -> *const c_char, std::ptr::null(), |text| {
        text.fault.as_ref().map_or(std::ptr::null(), |it| it.2.as_ptr())
    };
    mireladle_text_query() -> *const u8, std::ptr::null(), |text| match text.fault {
        Some(_) => std::ptr::null(),
        None => text.query.as_ptr(),
    };
    mireladle_text_query_length() -> usize, 0, |text| text.query.len();
    mireladle_text_names() -> usize, 0, |text| text.columns.len();
    mireladle_text_name(index: usize) -> *const c_char, std::ptr::null(), |text| {
        item(&text.columns, index)
    };
    mireladle_text_titles() -> usize, 0, |text| text.titles.len();
    mireladle_text_title(index: usize) -> *const c_char, std::ptr::null(), |text| {
        item(&text.titles, index)
    };
    mireladle_text_warnings() -> usize, 0, |text| text.warnings.len();
    mireladle_text_warning(index: usize) -> *const c_char, std::ptr::null(), |text| {
        item(&text.warnings, index)
    };
}

/// The number that a cell of a column is. See the header.
///
/// # Safety
///
/// The text is as for the other functions; the cell is null or points at so many bytes; the number
/// is null or can be written to.
#[no_mangle]
#[allow(unsafe_code)]
pub unsafe extern "C" fn mireladle_text_cell(
    text: *const Text,
    column: usize,
    cell: *const c_char,
    length: usize,
    number: *mut i32,
) -> i32 {
    // SAFETY: as the caller promises.
    let (text, cell) = unsafe { (text.as_ref(), bytes(cell, length)) };
    let read = || {
        let column = text?.read.as_ref()?.columns.get(column)?;
        let cell = std::str::from_utf8(cell?).ok()?.trim();
        cells::number(cell.as_bytes(), column.codes.as_ref()).ok()
    };
    let found = catch_unwind(AssertUnwindSafe(read)).ok().flatten();
    match found {
        Some(found) if !number.is_null() => {
            // SAFETY: as the caller promises.
            unsafe { number.write(found) };
            1
        }
        _ => 0,
    }
}
