// Stand-in for `errors`: keeps what is reported for `take` and expects nothing.

use env::Point;
use std::cell::RefCell;
use std::error::Error;

thread_local! {
    static REPORTED: RefCell<Vec<(Point, String)>> = RefCell::new(vec![])
}

pub struct ErrorReporting;

impl ErrorReporting {
    pub fn new() -> Self {
        REPORTED.with(|reported| reported.borrow_mut().clear());
        ErrorReporting
    }

    pub fn expect_error(&mut self, _point: Point, _message: &str) {}

    pub fn report_error(&mut self, point: Point, message: String) {
        REPORTED.with(|reported| reported.borrow_mut().push((point, message)));
    }

    pub fn reconcile_errors(self) -> Result<(), Box<Error>> {
        Ok(())
    }
}

/// What was reported since the last `ErrorReporting::new`.
pub fn take() -> Vec<(Point, String)> {
    REPORTED.with(|reported| reported.borrow_mut().drain(..).collect())
}
