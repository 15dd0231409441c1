// No location type: tokens come without spans, locations are `()`, and the spans of the token lines are
// read and dropped.
use crate::tokens::Tok;

grammar;

extern {
    enum Tok {
        "[" => Tok::Open,
        "]" => Tok::Close,
    }
}

pub Depth: usize = {
    () => 0,
    "[" <depth:Depth> "]" => depth + 1,
};
%%
Depth 200 - 0@0-1 0@1-2 1@2-3 1@3-4
Depth 200 - 0@0-1 1@1-2 1@2-3
