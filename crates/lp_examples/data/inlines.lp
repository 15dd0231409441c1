// Inline rules: `Sign` and `Digits` are expanded where they are used, so that the parser decides nothing
// before it has to. The actions of what was inlined run when the rule around them is reduced.
use crate::tokens::Tok;

grammar;

extern {
    type Location = usize;

    enum Tok {
        "+" => Tok::Plus,
        "-" => Tok::Minus,
        "N" => Tok::Num(<i64>),
    }
}

pub Number: i64 = {
    <sign:Sign> <digits:Digits> => sign * digits,
};

#[inline]
Sign: i64 = {
    "+" => 1,
    "-" => -1,
    () => 1,
};

#[inline]
Digits: i64 = <n:"N"> => n;
%%
Number 200 - 2(5)@0-1
Number 200 - 1@0-1 2(5)@1-2
