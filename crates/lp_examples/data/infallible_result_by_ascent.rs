#[allow(unused_extern_crates)]
extern crate lalrpop_util as __lalrpop_util;
#[allow(unused_imports)]
use self::__lalrpop_util::state_machine as __state_machine;
#[allow(unused_extern_crates)]
extern crate alloc;

#[rustfmt::skip]
#[allow(explicit_outlives_requirements, non_snake_case, non_camel_case_types, unused_mut, unused_variables, unused_imports, unused_parens, clippy::needless_lifetimes, clippy::type_complexity, clippy::needless_return, clippy::too_many_arguments, clippy::match_single_binding, clippy::clone_on_copy, clippy::unit_arg)]
mod __parse__S {

    #[allow(unused_extern_crates)]
    extern crate lalrpop_util as __lalrpop_util;
    #[allow(unused_imports)]
    use self::__lalrpop_util::state_machine as __state_machine;
    #[allow(unused_extern_crates)]
    extern crate alloc;
    use super::__ToTriple;
    pub struct SParser {
        _priv: (),
    }

    impl Default for SParser { fn default() -> Self { Self::new() } }
    impl SParser {
        pub fn new() -> SParser {
            SParser {
                _priv: (),
            }
        }

        #[allow(dead_code)]
        pub fn parse<
            __TOKEN: __ToTriple<>,
            __TOKENS: IntoIterator<Item=__TOKEN>,
        >(
            &self,
            __tokens0: __TOKENS,
        ) -> Result<Result<u32, lalrpop_util::ParseError<u32, u32, u32>>, __lalrpop_util::ParseError<usize, Tok, &'static str>>
        {
            let __tokens = __tokens0.into_iter();
            let mut __tokens = __tokens.map(|t| __ToTriple::to_triple(t));
            let __lookahead = match __tokens.next() {
                Some(Ok(v)) => Some(v),
                Some(Err(e)) => return Err(e),
                None => None,
            };
            let mut __states: alloc::vec::Vec<i8> = alloc::vec![0];
            match __state0(&mut __tokens, &mut __states, __lookahead, core::marker::PhantomData::<()>)? {
                (Some(__lookahead), _) => {
                    Err(__lalrpop_util::ParseError::ExtraToken { token: __lookahead })
                }
                (None, __Nonterminal::____S((_, __nt, _))) => {
                    Ok(__nt)
                }
                _ => unreachable!(),
            }
        }
    }

    #[allow(dead_code)]
    enum __Nonterminal<>
     {
        S((usize, Result<u32, lalrpop_util::ParseError<u32, u32, u32>>, usize)),
        ____S((usize, Result<u32, lalrpop_util::ParseError<u32, u32, u32>>, usize)),
    }

    fn __state0<
        __TOKENS: Iterator<Item=Result<(usize, Tok, usize),__lalrpop_util::ParseError<usize, Tok, &'static str>>>,
    >(
        __tokens: &mut __TOKENS,
        __states: &mut alloc::vec::Vec<i8>,
        __lookahead: Option<(usize, Tok, usize)>,
        _: core::marker::PhantomData<()>,
    ) -> Result<(Option<(usize, Tok, usize)>, __Nonterminal<>), __lalrpop_util::ParseError<usize, Tok, &'static str>>
    {
        let mut __result: (Option<(usize, Tok, usize)>, __Nonterminal<>);
        match __lookahead {
            Some((__loc1, __tok @ Tok::A, __loc2)) => {
                let __sym0 = (__loc1, (__tok), __loc2);
                __states.push(1);
                __result = __state1(__tokens, __states, __sym0, core::marker::PhantomData::<()>)?;
                __states.pop();
            }
            _ => {
                let __expected = __expected(__states);
                return Err(
                    match __lookahead {
                        Some(__token) => {
                            __lalrpop_util::ParseError::UnrecognizedToken {
                                token: __token,
                                expected: __expected,
                            }
                        }
                        None => {
                            let __location = Default::default();
                            __lalrpop_util::ParseError::UnrecognizedEof {
                                location: __location,
                                expected: __expected,
                            }
                        }
                    }
                )
            }
        }
        #[allow(clippy::never_loop)]
        loop {
            let (__lookahead, __nt) = __result;
            match __nt {
                __Nonterminal::S(__sym0) => {
                    __states.push(2);
                    __result = __state2(__tokens, __states, __lookahead, __sym0, core::marker::PhantomData::<()>)?;
                    __states.pop();
                }
                _ => {
                    return Ok((__lookahead, __nt));
                }
            }
        }
    }

    fn __state1<
        __TOKENS: Iterator<Item=Result<(usize, Tok, usize),__lalrpop_util::ParseError<usize, Tok, &'static str>>>,
    >(
        __tokens: &mut __TOKENS,
        __states: &mut alloc::vec::Vec<i8>,
        __sym0: (usize, Tok, usize),
        _: core::marker::PhantomData<()>,
    ) -> Result<(Option<(usize, Tok, usize)>, __Nonterminal<>), __lalrpop_util::ParseError<usize, Tok, &'static str>>
    {
        let mut __result: (Option<(usize, Tok, usize)>, __Nonterminal<>);
        let __lookahead = match __tokens.next() {
            Some(Ok(v)) => Some(v),
            Some(Err(e)) => return Err(e),
            None => None,
        };
        match __lookahead {
            None => {
                let __start = __sym0.0.clone();
                let __end = __sym0.2.clone();
                let __nt = super::__action1::<>(__sym0);
                let __nt = __Nonterminal::S((
                    __start,
                    __nt,
                    __end,
                ));
                __result = (__lookahead, __nt);
                return Ok(__result);
            }
            _ => {
                let __expected = __expected(__states);
                return Err(
                    match __lookahead {
                        Some(__token) => {
                            __lalrpop_util::ParseError::UnrecognizedToken {
                                token: __token,
                                expected: __expected,
                            }
                        }
                        None => {
                            let __location = __sym0.2;
                            __lalrpop_util::ParseError::UnrecognizedEof {
                                location: __location,
                                expected: __expected,
                            }
                        }
                    }
                )
            }
        }
    }

    fn __state2<
        __TOKENS: Iterator<Item=Result<(usize, Tok, usize),__lalrpop_util::ParseError<usize, Tok, &'static str>>>,
    >(
        __tokens: &mut __TOKENS,
        __states: &mut alloc::vec::Vec<i8>,
        __lookahead: Option<(usize, Tok, usize)>,
        __sym0: (usize, Result<u32, lalrpop_util::ParseError<u32, u32, u32>>, usize),
        _: core::marker::PhantomData<()>,
    ) -> Result<(Option<(usize, Tok, usize)>, __Nonterminal<>), __lalrpop_util::ParseError<usize, Tok, &'static str>>
    {
        let mut __result: (Option<(usize, Tok, usize)>, __Nonterminal<>);
        match __lookahead {
            None => {
                let __start = __sym0.0.clone();
                let __end = __sym0.2.clone();
                let __nt = super::__action0::<>(__sym0);
                let __nt = __Nonterminal::____S((
                    __start,
                    __nt,
                    __end,
                ));
                __result = (__lookahead, __nt);
                return Ok(__result);
            }
            _ => {
                let __expected = __expected(__states);
                return Err(
                    match __lookahead {
                        Some(__token) => {
                            __lalrpop_util::ParseError::UnrecognizedToken {
                                token: __token,
                                expected: __expected,
                            }
                        }
                        None => {
                            let __location = __sym0.2;
                            __lalrpop_util::ParseError::UnrecognizedEof {
                                location: __location,
                                expected: __expected,
                            }
                        }
                    }
                )
            }
        }
    }
    const __ACTION: &[i8] = &[
        // State 0
        2,
        // State 1
        0,
        // State 2
        0,
    ];
    fn __action(state: i8, integer: usize) -> i8 {
        __ACTION[(state as usize)  + integer]
    }
    fn __goto(state: i8, nt: usize) -> i8 {
        match nt {
            0 => 2,
            _ => 0,
        }
    }
    #[allow(clippy::needless_raw_string_hashes)]
    const __TERMINAL: &[&str] = &[
        r###""a""###,
    ];
    fn __simulate(__index: i8) -> Option<(usize, usize)> {
        match __index {
            0 => Some((1, 0)),
            1 => None,
            _ => unreachable!(),
        }
    }
    fn __accepts(__states: &[i8], __integer: usize) -> bool {
        let mut __states = __states.to_vec();
        loop {
            let __top = __states[__states.len() - 1];
            let __action = __action(__top, __integer);
            if __action == 0 { return false; }
            if __action > 0 { return true; }
            let (__to_pop, __nt) = match __simulate(-(__action + 1)) {
                Some(v) => v,
                None => return true,
            };
            let __states_len = __states.len();
            __states.truncate(__states_len - __to_pop);
            let __top = __states[__states.len() - 1];
            let __next_state = __goto(__top, __nt);
            __states.push(__next_state);
        }
    }
    fn __expected(__states: &[i8]) -> alloc::vec::Vec<alloc::string::String> {
        __TERMINAL.iter().enumerate().filter_map(|(index, terminal)| {
            if __accepts(__states, index) {
                Some(alloc::string::ToString::to_string(terminal))
            } else {
                None
            }
        }).collect()
    }
}
#[allow(unused_imports)]
pub use self::__parse__S::SParser;

#[allow(clippy::too_many_arguments, clippy::needless_lifetimes, clippy::just_underscores_and_digits)]
fn __action0<
>(
    (_, __0, _): (usize, Result<u32, lalrpop_util::ParseError<u32, u32, u32>>, usize),
) -> Result<u32, lalrpop_util::ParseError<u32, u32, u32>>
{
    __0
}

#[allow(clippy::too_many_arguments, clippy::needless_lifetimes, clippy::just_underscores_and_digits)]
fn __action1<
>(
    (_, _, _): (usize, Tok, usize),
) -> Result<u32, lalrpop_util::ParseError<u32, u32, u32>>
{
    a()
}

#[allow(clippy::type_complexity, dead_code)]
pub trait __ToTriple<>
{
    fn to_triple(self) -> Result<(usize,Tok,usize), __lalrpop_util::ParseError<usize, Tok, &'static str>>;
}

impl<> __ToTriple<> for (usize, Tok, usize)
{
    fn to_triple(self) -> Result<(usize,Tok,usize), __lalrpop_util::ParseError<usize, Tok, &'static str>> {
        Ok(self)
    }
}
impl<> __ToTriple<> for Result<(usize, Tok, usize), &'static str>
{
    fn to_triple(self) -> Result<(usize,Tok,usize), __lalrpop_util::ParseError<usize, Tok, &'static str>> {
        self.map_err(|error| __lalrpop_util::ParseError::User { error })
    }
}
