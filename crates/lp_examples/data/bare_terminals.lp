// Bare terminals: a terminal may be a name instead of a literal. Error messages show it as it is.
use crate::tokens::Token;

grammar;

extern {
    type Location = usize;

    enum Token {
        NUMBER => Token::Number(<f64>),
        NAME => Token::Name(<String>),
        COLON => Token::Colon,
        COMMA => Token::Comma,
    }
}

pub Fields: Vec<(String, f64)> = {
    <field:Field> => vec![field],
    <mut fields:Fields> COMMA <field:Field> => { fields.push(field); fields },
};

Field: (String, f64) = <name:NAME> COLON <value:NUMBER> => (name, value);
%%
Fields 200 - 1(a)@0-1 2@1-2 0(1.5)@3-6
Fields 200 - 1(a)@0-1 2@1-2 2@2-3
