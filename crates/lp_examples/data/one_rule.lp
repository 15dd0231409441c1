// One rule over one terminal: the smallest grammar that reads anything.
//
//     ./lp run < examples/one_rule.lp
//
// prints the parser text, the line `---`, and the run of the token line below the
// two percent signs: terminal 0, from place 0 to place 1, in at most 200 steps,
// with no failing call.
grammar;

extern {
    type Location = usize;

    enum Tok {
        "a" => Tok::A,
    }
}

pub S: () = "a" => ();
%%
S 200 - 0@0-1
