// Parameters with a reference and a where clause: every function of the parser is handed the input and
// the table, and is generic over the lifetime and over `T`.
use crate::names::{Lookup, Name, Unknown};
use crate::tokens::Tok;

grammar<'input, T>(input: &'input str, table: &mut T) where T: Lookup<'input>;

extern {
    type Location = usize;
    type Error = Unknown;

    enum Tok {
        "X" => Tok::Name,
        "." => Tok::Dot,
    }
}

pub Path: Name<'input> = {
    <from:@L> "X" <to:@R> =>? table.find(&input[from..to]),
    <path:Path> "." <from:@L> "X" <to:@R> =>? table.under(path, &input[from..to]),
};
%%
Path 200 - 0@0-3 1@3-4 0@4-7
