// Lookarounds: `@L` is where the next token starts, `@R` where the last one ended. Here each name is
// kept with its span, and an empty list with the place where it stands.
use crate::ast::{Call, List};
use crate::tokens::Tok;

grammar;

extern {
    type Location = usize;

    enum Tok {
        "(" => Tok::Open,
        ")" => Tok::Close,
        "X" => Tok::Name(<String>),
    }
}

pub Call: Call = {
    <name:Spanned> "(" <arguments:List> ")" => Call { name, arguments },
};

Spanned: (usize, String, usize) = {
    <from:@L> <name:"X"> <to:@R> => (from, name, to),
};

List: List = {
    <at:@L> => List::empty(at),
    <list:List> <name:Spanned> => list.with(name),
};
%%
Call 200 - 2(f)@10-11 0@11-12 1@14-15
Call 200 - 2(f)@10-11 0@11-12 2(x)@14-15 2(y)@16-17 1@17-18
