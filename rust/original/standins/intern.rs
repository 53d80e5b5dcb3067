// Stand-in for `intern`: strings are numbered as they come, and compare by number. `START` is the
// first of all, then the other blocks in the order of the record.

use std::cell::RefCell;
use std::collections::HashMap;
use std::fmt;

#[derive(Copy, Clone, Debug, Hash, PartialEq, Eq, PartialOrd, Ord)]
pub struct InternedString {
    number: usize,
}

struct Interner {
    numbers: HashMap<String, usize>,
    strings: Vec<String>,
}

thread_local! {
    static INTERNER: RefCell<Interner> = RefCell::new(Interner::with_blocks())
}

impl Interner {
    fn with_blocks() -> Self {
        let mut interner = Interner { numbers: HashMap::new(), strings: vec![] };
        for block in 0..64 {
            interner.intern(&block_name(block));
        }
        interner
    }

    fn intern(&mut self, text: &str) -> InternedString {
        if let Some(&number) = self.numbers.get(text) {
            return InternedString { number };
        }
        let number = self.strings.len();
        self.strings.push(text.to_string());
        self.numbers.insert(text.to_string(), number);
        InternedString { number }
    }
}

pub fn block_name(block: usize) -> String {
    if block == 0 {
        "START".to_string()
    } else {
        format!("B{}", block)
    }
}

pub fn intern(text: &str) -> InternedString {
    INTERNER.with(|interner| interner.borrow_mut().intern(text))
}

impl fmt::Display for InternedString {
    fn fmt(&self, fmt: &mut fmt::Formatter) -> Result<(), fmt::Error> {
        INTERNER.with(|interner| write!(fmt, "{}", interner.borrow().strings[self.number]))
    }
}
