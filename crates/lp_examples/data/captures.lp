// Captures: a token's pattern has holes, and what they hold are the arguments of the call. A token with
// one hole is passed as what the hole holds, one with several as a tuple, one without holes whole.
use crate::tokens::{Tok, Unit};

grammar;

extern {
    type Location = usize;

    enum Tok {
        "N" => Tok::Num(<i64>),
        "P" => Tok::Pair(<i64>, Unit::Of(<f64>), _),
        "," => Tok::Comma,
    }
}

pub List: Vec<i64> = {
    <item:Item> => vec![item],
    <mut list:List> "," <item:Item> => { list.push(item); list },
};

Item: i64 = {
    <n:"N"> => n,
    <p:"P"> => p.0,
};
%%
List 200 - 0(7)@0-1 2@1-2 1(3,2.5)@2-9
