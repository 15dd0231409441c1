// Tokens that are characters, one of them a quotation mark. The same by recursive ascent.
#[recursive_ascent]
grammar;

extern {
    type Location = usize;

    enum char {
        "quote" => '"',
        "a" => 'a',
    }
}

pub Quoted: () = "quote" "a" "quote" => ();
%%
Quoted 200 - 0@0-1 1@1-2 0@2-3
