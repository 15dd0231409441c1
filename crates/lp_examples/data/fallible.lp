// Calls that may fail: `=>?` marks code whose value is a `Result`; its error ends the parse. In the
// second token line the first call fails, in the third the token source does.
use crate::range::{ordered, small, RangeError};
use crate::tokens::Tok;

grammar;

extern {
    type Location = usize;
    type Error = RangeError;

    enum Tok {
        "N" => Tok::Num(<u64>),
        ".." => Tok::To,
    }
}

pub Range: (u8, u8) = {
    <from:Small> ".." <to:Small> =>? ordered(from, to),
};

Small: u8 = <n:"N"> =>? small(n);
%%
Range 200 - 0(1)@0-1 1@1-3 0(9)@3-4
Range 200 0 0(999)@0-3 1@3-5 0(9)@5-6
Range 200 - 0(1)@0-1 !lexer
