// Differences of numbers with parentheses: a rule that calls itself on the left, and two rules
// that call each other. The token line is `N - (N - N)`.
grammar;

extern {
    type Location = usize;

    enum Tok {
        "-" => Tok::Minus,
        "N" => Tok::N,
        "(" => Tok::L,
        ")" => Tok::R,
    }
}

pub S: () = E => ();

E: () = {
    E "-" T => (),
    T => (),
};

T: () = {
    "N" => (),
    "(" E ")" => (),
};
%%
S 300 - 1@0-1 0@1-2 2@2-3 1@3-4 0@4-5 1@5-6 3@6-7
