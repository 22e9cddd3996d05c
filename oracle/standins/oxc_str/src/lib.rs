//! Stand-in for oxc_str: what the escapes in unicode.rs need to compile. The oracle calls none of it.

use std::marker::PhantomData;

pub struct JSChar;

impl JSChar {
    pub fn from_u32(_code: u32) -> Option<Self> {
        unimplemented!()
    }
}

pub struct JSStrBuilder<'a>(PhantomData<&'a ()>);

impl JSStrBuilder<'_> {
    pub fn push(&mut self, _c: char) {
        unimplemented!()
    }

    pub fn push_js_char(&mut self, _c: JSChar) {
        unimplemented!()
    }
}
