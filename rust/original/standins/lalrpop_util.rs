// Stand-in for `lalrpop_util`: the errors that `Func::parse` tells apart. A token is a byte of a record.

pub enum ParseError {
    InvalidToken { location: usize },
    UnrecognizedToken { token: Option<(usize, u8, usize)>, expected: Vec<String> },
    ExtraToken { token: (usize, u8, usize) },
    User { error: () },
}
