// Several starts: each public rule has a parser of its own, over the same rules and the same actions.
use crate::ast::{Statement, Value};
use crate::tokens::Tok;

grammar;

extern {
    type Location = usize;

    enum Tok {
        "let" => Tok::Let,
        "=" => Tok::Is,
        ";" => Tok::End,
        "X" => Tok::Name(<String>),
    }
}

pub Program: Vec<Statement> = {
    () => Vec::new(),
    <mut all:Program> <next:Statement> => { all.push(next); all },
};

pub Statement: Statement = "let" <name:"X"> "=" <value:Value> ";" => Statement { name, value };

pub Value: Value = <name:"X"> => Value(name);
%%
Value 100 - 3(y)@0-1
Statement 200 - 0@0-3 3(x)@4-5 1@6-7 3(y)@8-9 2@9-10
Program 300 - 0@0-3 3(x)@4-5 1@6-7 3(y)@8-9 2@9-10 0@11-14 3(z)@15-16 1@17-18 3(x)@19-20 2@20-21
