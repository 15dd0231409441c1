// An action whose value is a `Result` though it can't fail: with `=>` its value is handed on as it is, and only
// `=>?` would look into it. This `Result` has the type of the parser's own answer.
grammar;

extern {
    type Location = usize;

    enum Tok {
        "a" => Tok::A,
    }
}

pub S: Result<u32, lalrpop_util::ParseError<u32, u32, u32>> = "a" => a();
%%
S 200 - 0@0-1
