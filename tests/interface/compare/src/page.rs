//! Memory that ends at a page which may not be touched, so that a call that reads or writes past a lent
//! length dies at once; the bytes before the lent part are watched.

use std::ffi::c_void;

extern "C" {
    fn mmap(at: *mut c_void, length: usize, protection: i32, flags: i32, file: i32, offset: i64) -> *mut c_void;
    fn mprotect(at: *mut c_void, length: usize, protection: i32) -> i32;
}

const PAGE: usize = 4096;
const ROOM: usize = 4096 * PAGE; // more than any buffer lent here
const BEFORE: usize = 64;
const MARK: u8 = 0xa5;

/// A value that is lent.
type Value<'a> = calls::Value<&'a [i32], &'a [u8]>;

pub struct Page(*mut u8);

impl Page {
    pub fn new() -> Page {
        // read and write, private and anonymous; then none for the last page
        unsafe {
            let base = mmap(std::ptr::null_mut(), ROOM + PAGE, 3, 0x22, -1, 0) as *mut u8;
            assert!(base as isize != -1 && mprotect(base.add(ROOM) as *mut c_void, PAGE, 0) == 0);
            Page(base)
        }
    }

    /// A copy of `content` that ends where the page does.
    pub fn lend<T: Copy>(&mut self, content: &[T]) -> &mut [T] {
        let bytes = std::mem::size_of_val(content);
        assert!(bytes + BEFORE <= ROOM);
        unsafe {
            let start = self.0.add(ROOM - bytes);
            start.sub(BEFORE).write_bytes(MARK, BEFORE);
            let lent = std::slice::from_raw_parts_mut(start as *mut T, content.len());
            lent.copy_from_slice(content);
            lent
        }
    }

    /// What is there after the call, if the bytes before it are as they were.
    pub fn after<T: Copy>(&self, length: usize) -> Option<&[T]> {
        unsafe {
            let start = self.0.add(ROOM - length * std::mem::size_of::<T>());
            let before = std::slice::from_raw_parts(start.sub(BEFORE), BEFORE);
            before.iter().all(|&b| b == MARK).then(|| std::slice::from_raw_parts(start as *const T, length))
        }
    }

    /// A value as it is lent: a number needs no page.
    pub fn lend_value<'a>(&'a mut self, value: Value<'a>) -> Value<'a> {
        match value {
            Value::Number(_) => value,
            Value::Numbers(numbers) => Value::Numbers(self.lend(numbers)),
            Value::Bytes(bytes) => Value::Bytes(self.lend(bytes)),
        }
    }

    /// Whether that is what was lent.
    pub fn kept(&self, value: Value) -> bool {
        match value {
            Value::Number(_) => true,
            Value::Numbers(numbers) => self.after(numbers.len()) == Some(numbers),
            Value::Bytes(bytes) => self.after(bytes.len()) == Some(bytes),
        }
    }
}
