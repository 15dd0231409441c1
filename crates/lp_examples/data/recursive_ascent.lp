// Recursive ascent code: after `a` and `0` the parser may have read all of an `X`, or the front of a
// `B`, so the function of that state is handed a value that it may not need.
use crate::tokens::Tok;

#[recursive_ascent]
grammar;

extern {
    type Location = usize;

    enum Tok {
        "a" => Tok::A,
        "0" => Tok::Zero,
        "1" => Tok::One,
    }
}

pub X: () = {
    A "0" => (),
    A B => (),
};

B: () = "0" "1" => ();

A: () = "a" => ();
%%
X 200 - 0@0-1 1@1-2
X 200 - 0@0-1 1@1-2 2@2-3
