// A pattern with a bracket in quotes in front of its hole: the bracket in quotes opens nothing. The same by recursive ascent.
use crate::tokens::Tok;

#[recursive_ascent]
grammar;

extern {
    type Location = usize;

    enum Tok {
        "q" => Tok::Ch('(', <u32>),
        "n" => Tok::Num(<u32>),
    }
}

pub S: () = {
    "q" => (),
    "n" => (),
};
%%
S 200 - 0(5)@0-1
S 200 - 1(5)@0-1
