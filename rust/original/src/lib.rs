//! The original analysis, compiled unchanged from the folder that `build.rs` names, and what it
//! answers about one record of document 01.
#![allow(warnings)]

macro_rules! log {
    ($($text:tt)*) => {};
}

macro_rules! lazy_static {
    (static ref $name:ident : $ty:ty = $value:expr;) => {
        static $name: $ty = $value;
    };
}

include!(concat!(env!("OUT_DIR"), "/modules.rs"));

mod answer;
pub mod order;
mod panics;

/// The original's region check, with the parts of it that only its own module can see.
mod regionck {
    include!(concat!(env!("OUT_DIR"), "/nll/src/regionck.rs"));

    /// `region_check`, which keeps what was found.
    pub fn checked<'env>(env: &'env Environment<'env>) -> RegionCheck<'env> {
        let mut ck = RegionCheck { env, infer: InferenceContext::new(), region_map: HashMap::new() };
        ck.check().expect("no assertion and no expected error is given");
        ck
    }

    impl<'env> RegionCheck<'env> {
        /// The region, if one was ever made with this name.
        pub fn region_if_made(&self, name: RegionName) -> Option<&Region> {
            self.region_map.get(&name).map(|&var| self.infer.region(var))
        }
    }
}

pub use answer::{analyse, check, parse, text_of, Answer, Failure, Parsed, Verdict};
pub use order::Order;
