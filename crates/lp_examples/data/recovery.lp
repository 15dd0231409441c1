// Error recovery: `!` stands for what could not be parsed. A statement with an error in it becomes what
// `broken` makes of the error and of the tokens that were dropped, and the parse goes on.
use crate::errors::{broken, Broken};
use crate::tokens::Tok;

grammar(errors: &mut Vec<Broken>);

extern {
    type Location = usize;

    enum Tok {
        "N" => Tok::Num(<i64>),
        "+" => Tok::Plus,
        ";" => Tok::End,
    }
}

pub Statements: i64 = {
    () => 0,
    <sum:Statements> <value:Statement> ";" => sum + value,
};

Statement: i64 = {
    <value:Sum> => value,
    <error:!> => broken(errors, error),
};

Sum: i64 = {
    <n:"N"> => n,
    <a:Sum> "+" <n:"N"> => a + n,
};
%%
Statements 300 - 0(1)@0-1 1@1-2 0(2)@2-3 2@3-4
Statements 400 - 0(1)@0-1 1@1-2 1@2-3 0(2)@3-4 2@4-5 0(3)@5-6 2@6-7
