use crate::names::{Lookup, Name, Unknown};
use crate::tokens::Tok;
#[allow(unused_extern_crates)]
extern crate lalrpop_util as __lalrpop_util;
#[allow(unused_imports)]
use self::__lalrpop_util::state_machine as __state_machine;
#[allow(unused_extern_crates)]
extern crate alloc;

#[rustfmt::skip]
#[allow(explicit_outlives_requirements, non_snake_case, non_camel_case_types, unused_mut, unused_variables, unused_imports, unused_parens, clippy::needless_lifetimes, clippy::type_complexity, clippy::needless_return, clippy::too_many_arguments, clippy::match_single_binding, clippy::clone_on_copy, clippy::unit_arg)]
mod __parse__Path {

    use crate::names::{Lookup, Name, Unknown};
    use crate::tokens::Tok;
    #[allow(unused_extern_crates)]
    extern crate lalrpop_util as __lalrpop_util;
    #[allow(unused_imports)]
    use self::__lalrpop_util::state_machine as __state_machine;
    #[allow(unused_extern_crates)]
    extern crate alloc;
    use super::__ToTriple;
    #[allow(dead_code)]
    pub(crate) enum __Symbol<'input>
     {
        Variant0(Tok),
        Variant1(Name<'input>),
    }
    const __ACTION: &[i8] = &[
        // State 0
        2, 0,
        // State 1
        0, -1,
        // State 2
        0, 4,
        // State 3
        5, 0,
        // State 4
        0, -2,
    ];
    fn __action(state: i8, integer: usize) -> i8 {
        __ACTION[(state as usize) * 2 + integer]
    }
    const __EOF_ACTION: &[i8] = &[
        // State 0
        0,
        // State 1
        -1,
        // State 2
        -3,
        // State 3
        0,
        // State 4
        -2,
    ];
    fn __goto(state: i8, nt: usize) -> i8 {
        match nt {
            0 => 2,
            _ => 0,
        }
    }
    #[allow(clippy::needless_raw_string_hashes)]
    const __TERMINAL: &[&str] = &[
        r###""X""###,
        r###"".""###,
    ];
    fn __expected_tokens(__state: i8) -> alloc::vec::Vec<alloc::string::String> {
        __TERMINAL.iter().enumerate().filter_map(|(index, terminal)| {
            let next_state = __action(__state, index);
            if next_state == 0 {
                None
            } else {
                Some(alloc::string::ToString::to_string(terminal))
            }
        }).collect()
    }
    fn __expected_tokens_from_states<
        'input,
        '__2,
        T,
    >(
        __states: &[i8],
        _: core::marker::PhantomData<(&'input (), T)>,
    ) -> alloc::vec::Vec<alloc::string::String>
    where
        T: Lookup<'input>,
        T: '__2,
    {
        __TERMINAL.iter().enumerate().filter_map(|(index, terminal)| {
            if __accepts(None, __states, Some(index), core::marker::PhantomData::<(&(), T)>) {
                Some(alloc::string::ToString::to_string(terminal))
            } else {
                None
            }
        }).collect()
    }
    struct __StateMachine<'input, '__2, T>
    where T: Lookup<'input>, T: '__2
    {
        input: &'input str,
        table: &'__2 mut T,
        __phantom: core::marker::PhantomData<(&'input (), T)>,
    }
    impl<'input, '__2, T> __state_machine::ParserDefinition for __StateMachine<'input, '__2, T>
    where T: Lookup<'input>, T: '__2
    {
        type Location = usize;
        type Error = Unknown;
        type Token = Tok;
        type TokenIndex = usize;
        type Symbol = __Symbol<'input>;
        type Success = Name<'input>;
        type StateIndex = i8;
        type Action = i8;
        type ReduceIndex = i8;
        type NonterminalIndex = usize;

        #[inline]
        fn start_location(&self) -> Self::Location {
              Default::default()
        }

        #[inline]
        fn start_state(&self) -> Self::StateIndex {
              0
        }

        #[inline]
        fn token_to_index(&self, token: &Self::Token) -> Option<usize> {
            __token_to_integer(token, core::marker::PhantomData::<(&(), T)>)
        }

        #[inline]
        fn action(&self, state: i8, integer: usize) -> i8 {
            __action(state, integer)
        }

        #[inline]
        fn error_action(&self, state: i8) -> i8 {
            __action(state, 2 - 1)
        }

        #[inline]
        fn eof_action(&self, state: i8) -> i8 {
            __EOF_ACTION[state as usize]
        }

        #[inline]
        fn goto(&self, state: i8, nt: usize) -> i8 {
            __goto(state, nt)
        }

        fn token_to_symbol(&self, token_index: usize, token: Self::Token) -> Self::Symbol {
            __token_to_symbol(token_index, token, core::marker::PhantomData::<(&(), T)>)
        }

        fn expected_tokens(&self, state: i8) -> alloc::vec::Vec<alloc::string::String> {
            __expected_tokens(state)
        }

        fn expected_tokens_from_states(&self, states: &[i8]) -> alloc::vec::Vec<alloc::string::String> {
            __expected_tokens_from_states(states, core::marker::PhantomData::<(&(), T)>)
        }

        #[inline]
        fn uses_error_recovery(&self) -> bool {
            false
        }

        #[inline]
        fn error_recovery_symbol(
            &self,
            recovery: __state_machine::ErrorRecovery<Self>,
        ) -> Self::Symbol {
            panic!("error recovery not enabled for this grammar")
        }

        fn reduce(
            &mut self,
            action: i8,
            start_location: Option<&Self::Location>,
            states: &mut alloc::vec::Vec<i8>,
            symbols: &mut alloc::vec::Vec<__state_machine::SymbolTriple<Self>>,
        ) -> Option<__state_machine::ParseResult<Self>> {
            __reduce(
                self.input,
                self.table,
                action,
                start_location,
                states,
                symbols,
                core::marker::PhantomData::<(&(), T)>,
            )
        }

        fn simulate_reduce(&self, action: i8) -> __state_machine::SimulatedReduce<Self> {
            __simulate_reduce(action, core::marker::PhantomData::<(&(), T)>)
        }
    }
    fn __token_to_integer<
        'input,
        T,
    >(
        __token: &Tok,
        _: core::marker::PhantomData<(&'input (), T)>,
    ) -> Option<usize>
    where
        T: Lookup<'input>,
    {
        #[warn(unused_variables)]
        match __token {
            Tok::Name if true => Some(0),
            Tok::Dot if true => Some(1),
            _ => None,
        }
    }
    fn __token_to_symbol<
        'input,
        T,
    >(
        __token_index: usize,
        __token: Tok,
        _: core::marker::PhantomData<(&'input (), T)>,
    ) -> __Symbol<'input>
    where
        T: Lookup<'input>,
    {
        #[allow(clippy::manual_range_patterns)]match __token_index {
            0 | 1 => __Symbol::Variant0(__token),
            _ => unreachable!(),
        }
    }
    fn __simulate_reduce<
        'input,
        '__2,
        T,
    >(
        __reduce_index: i8,
        _: core::marker::PhantomData<(&'input (), T)>,
    ) -> __state_machine::SimulatedReduce<__StateMachine<'input, '__2, T>>
    where
        T: Lookup<'input>,
        T: '__2,
    {
        match __reduce_index {
            0 => {
                __state_machine::SimulatedReduce::Reduce {
                    states_to_pop: 1,
                    nonterminal_produced: 0,
                }
            }
            1 => {
                __state_machine::SimulatedReduce::Reduce {
                    states_to_pop: 3,
                    nonterminal_produced: 0,
                }
            }
            2 => __state_machine::SimulatedReduce::Accept,
            _ => panic!("invalid reduction index {__reduce_index}")
        }
    }
    pub struct PathParser {
        _priv: (),
    }

    impl Default for PathParser { fn default() -> Self { Self::new() } }
    impl PathParser {
        pub fn new() -> PathParser {
            PathParser {
                _priv: (),
            }
        }

        #[allow(dead_code)]
        pub fn parse<
            'input,
            T,
            __TOKEN: __ToTriple<'input, T, >,
            __TOKENS: IntoIterator<Item=__TOKEN>,
        >(
            &self,
            input: &'input str,
            table: &mut T,
            __tokens0: __TOKENS,
        ) -> Result<Name<'input>, __lalrpop_util::ParseError<usize, Tok, Unknown>>
        where
            T: Lookup<'input>,
        {
            let __tokens = __tokens0.into_iter();
            let mut __tokens = __tokens.map(|t| __ToTriple::to_triple(t));
            __state_machine::Parser::drive(
                __StateMachine {
                    input,
                    table,
                    __phantom: core::marker::PhantomData::<(&(), T)>,
                },
                __tokens,
            )
        }
    }
    fn __accepts<
        'input,
        '__2,
        T,
    >(
        __error_state: Option<i8>,
        __states: &[i8],
        __opt_integer: Option<usize>,
        _: core::marker::PhantomData<(&'input (), T)>,
    ) -> bool
    where
        T: Lookup<'input>,
        T: '__2,
    {
        let mut __states = __states.to_vec();
        __states.extend(__error_state);
        loop {
            let mut __states_len = __states.len();
            let __top = __states[__states_len - 1];
            let __action = match __opt_integer {
                None => __EOF_ACTION[__top as usize],
                Some(__integer) => __action(__top, __integer),
            };
            if __action == 0 { return false; }
            if __action > 0 { return true; }
            let (__to_pop, __nt) = match __simulate_reduce(-(__action + 1), core::marker::PhantomData::<(&(), T)>) {
                __state_machine::SimulatedReduce::Reduce {
                    states_to_pop, nonterminal_produced
                } => (states_to_pop, nonterminal_produced),
                __state_machine::SimulatedReduce::Accept => return true,
            };
            __states_len -= __to_pop;
            __states.truncate(__states_len);
            let __top = __states[__states_len - 1];
            let __next_state = __goto(__top, __nt);
            __states.push(__next_state);
        }
    }
    fn __reduce<
        'input,
        T,
    >(
        input: &'input str,
        table: &mut T,
        __action: i8,
        __lookahead_start: Option<&usize>,
        __states: &mut alloc::vec::Vec<i8>,
        __symbols: &mut alloc::vec::Vec<(usize,__Symbol<'input>,usize)>,
        _: core::marker::PhantomData<(&'input (), T)>,
    ) -> Option<Result<Name<'input>,__lalrpop_util::ParseError<usize, Tok, Unknown>>>
    where
        T: Lookup<'input>,
    {
        let (__pop_states, __nonterminal) = match __action {
            0 => {
                // Path = "X" => ActionFn(4);
                let __sym0 = __pop_Variant0(__symbols);
                let __start = __sym0.0.clone();
                let __end = __sym0.2.clone();
                let __nt = match super::__action4::<T>(input, table, __sym0) {
                    Ok(v) => v,
                    Err(e) => return Some(Err(e)),
                };
                __symbols.push((__start, __Symbol::Variant1(__nt), __end));
                (1, 0)
            }
            1 => {
                // Path = Path, ".", "X" => ActionFn(6);
                assert!(__symbols.len() >= 3);
                let __sym2 = __pop_Variant0(__symbols);
                let __sym1 = __pop_Variant0(__symbols);
                let __sym0 = __pop_Variant1(__symbols);
                let __start = __sym0.0.clone();
                let __end = __sym2.2.clone();
                let __nt = match super::__action6::<T>(input, table, __sym0, __sym1, __sym2) {
                    Ok(v) => v,
                    Err(e) => return Some(Err(e)),
                };
                __symbols.push((__start, __Symbol::Variant1(__nt), __end));
                (3, 0)
            }
            2 => {
                // __Path = Path => ActionFn(0);
                let __sym0 = __pop_Variant1(__symbols);
                let __start = __sym0.0.clone();
                let __end = __sym0.2.clone();
                let __nt = super::__action0::<T>(input, table, __sym0);
                return Some(Ok(__nt));
            }
            _ => panic!("invalid action code {__action}")
        };
        let __states_len = __states.len();
        __states.truncate(__states_len - __pop_states);
        let __state = *__states.last().unwrap();
        let __next_state = __goto(__state, __nonterminal);
        __states.push(__next_state);
        None
    }
    #[inline(never)]
    fn __symbol_type_mismatch() -> ! {
        panic!("symbol type mismatch")
    }
    fn __pop_Variant0<
      'input,
    >(
        __symbols: &mut alloc::vec::Vec<(usize,__Symbol<'input>,usize)>
    ) -> (usize, Tok, usize)
     {
        match __symbols.pop() {
            Some((__l, __Symbol::Variant0(__v), __r)) => (__l, __v, __r),
            _ => __symbol_type_mismatch()
        }
    }
    fn __pop_Variant1<
      'input,
    >(
        __symbols: &mut alloc::vec::Vec<(usize,__Symbol<'input>,usize)>
    ) -> (usize, Name<'input>, usize)
     {
        match __symbols.pop() {
            Some((__l, __Symbol::Variant1(__v), __r)) => (__l, __v, __r),
            _ => __symbol_type_mismatch()
        }
    }
}
#[allow(unused_imports)]
pub use self::__parse__Path::PathParser;

#[allow(unused_variables)]
#[allow(clippy::too_many_arguments, clippy::needless_lifetimes, clippy::just_underscores_and_digits)]
fn __action0<
    'input,
    T,
>(
    input: &'input str,
    table: &mut T,
    (_, __0, _): (usize, Name<'input>, usize),
) -> Name<'input>
where
    T: Lookup<'input>,
{
    __0
}

#[allow(unused_variables)]
#[allow(clippy::needless_lifetimes)]
fn __action1<
    'input,
    T,
>(
    input: &'input str,
    table: &mut T,
    __lookbehind: &usize,
    __lookahead: &usize,
) -> usize
where
    T: Lookup<'input>,
{
    *__lookahead
}

#[allow(unused_variables)]
#[allow(clippy::needless_lifetimes)]
fn __action2<
    'input,
    T,
>(
    input: &'input str,
    table: &mut T,
    __lookbehind: &usize,
    __lookahead: &usize,
) -> usize
where
    T: Lookup<'input>,
{
    *__lookbehind
}

#[allow(unused_variables)]
#[allow(clippy::too_many_arguments, clippy::needless_lifetimes, clippy::just_underscores_and_digits)]
fn __action3<
    'input,
    T,
>(
    input: &'input str,
    table: &mut T,
    (_, from, _): (usize, usize, usize),
    (_, _, _): (usize, Tok, usize),
    (_, to, _): (usize, usize, usize),
) -> Result<Name<'input>,__lalrpop_util::ParseError<usize,Tok,Unknown>>
where
    T: Lookup<'input>,
{
    table.find(&input[from..to])
}

#[allow(unused_variables)]
#[allow(clippy::too_many_arguments, clippy::needless_lifetimes, clippy::just_underscores_and_digits)]
fn __action4<
    'input,
    T,
>(
    input: &'input str,
    table: &mut T,
    __0: (usize, Tok, usize),
) -> Result<Name<'input>,__lalrpop_util::ParseError<usize,Tok,Unknown>>
where
    T: Lookup<'input>,
{
    let __start0 = __0.0;
    let __end0 = __0.0;
    let __start1 = __0.2;
    let __end1 = __0.2;
    let __temp0 = __action1::<
    T,
    >(
        input,
        table,
        &__start0,
        &__end0,
    );
    let __temp0 = (__start0, __temp0, __end0);
    let __temp1 = __action2::<
    T,
    >(
        input,
        table,
        &__start1,
        &__end1,
    );
    let __temp1 = (__start1, __temp1, __end1);
    __action3::<
    T,
    >(
        input,
        table,
        __temp0,
        __0,
        __temp1,
    )
}

#[allow(unused_variables)]
#[allow(clippy::too_many_arguments, clippy::needless_lifetimes, clippy::just_underscores_and_digits)]
fn __action5<
    'input,
    T,
>(
    input: &'input str,
    table: &mut T,
    (_, path, _): (usize, Name<'input>, usize),
    (_, _, _): (usize, Tok, usize),
    (_, from, _): (usize, usize, usize),
    (_, _, _): (usize, Tok, usize),
    (_, to, _): (usize, usize, usize),
) -> Result<Name<'input>,__lalrpop_util::ParseError<usize,Tok,Unknown>>
where
    T: Lookup<'input>,
{
    table.under(path, &input[from..to])
}

#[allow(unused_variables)]
#[allow(clippy::too_many_arguments, clippy::needless_lifetimes, clippy::just_underscores_and_digits)]
fn __action6<
    'input,
    T,
>(
    input: &'input str,
    table: &mut T,
    __0: (usize, Name<'input>, usize),
    __1: (usize, Tok, usize),
    __2: (usize, Tok, usize),
) -> Result<Name<'input>,__lalrpop_util::ParseError<usize,Tok,Unknown>>
where
    T: Lookup<'input>,
{
    let __start0 = __1.2;
    let __end0 = __2.0;
    let __start1 = __2.2;
    let __end1 = __2.2;
    let __temp0 = __action1::<
    T,
    >(
        input,
        table,
        &__start0,
        &__end0,
    );
    let __temp0 = (__start0, __temp0, __end0);
    let __temp1 = __action2::<
    T,
    >(
        input,
        table,
        &__start1,
        &__end1,
    );
    let __temp1 = (__start1, __temp1, __end1);
    __action5::<
    T,
    >(
        input,
        table,
        __0,
        __1,
        __temp0,
        __2,
        __temp1,
    )
}

#[allow(clippy::type_complexity, dead_code)]
pub trait __ToTriple<'input, T, >
where T: Lookup<'input>
{
    fn to_triple(self) -> Result<(usize,Tok,usize), __lalrpop_util::ParseError<usize, Tok, Unknown>>;
}

impl<'input, T, > __ToTriple<'input, T, > for (usize, Tok, usize)
where T: Lookup<'input>
{
    fn to_triple(self) -> Result<(usize,Tok,usize), __lalrpop_util::ParseError<usize, Tok, Unknown>> {
        Ok(self)
    }
}
impl<'input, T, > __ToTriple<'input, T, > for Result<(usize, Tok, usize), Unknown>
where T: Lookup<'input>
{
    fn to_triple(self) -> Result<(usize,Tok,usize), __lalrpop_util::ParseError<usize, Tok, Unknown>> {
        self.map_err(|error| __lalrpop_util::ParseError::User { error })
    }
}
