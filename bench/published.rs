// published REPEATS < SHEETS: the processor time that the published parser takes for the sheets one behind the other. Compiled among the
// published files, in place of the oracle's main. The tokens are made before the time is taken, and the trees are given back after it.
#![allow(warnings)]

mod debug;
mod language;
mod lexer;
mod limits;
mod parser;
mod runtime;
mod sheet;
mod utils;

use std::io::BufRead;
use debug::DebugSymbol;
use lexer::{LexerError, TokenMeta};
use parser::Parser;
use runtime::strings::StringInterner;
use sheet::{parse_line, token, Tok, LEXER_ERROR};

#[repr(C)]
struct Timespec { seconds: i64, nanoseconds: i64 }

extern "C" { fn clock_gettime(clock: i32, time: *mut Timespec) -> i32; }

const CLOCK_THREAD_CPUTIME_ID: i32 = 3;

fn now() -> f64 {
    let mut time = Timespec { seconds: 0, nanoseconds: 0 };
    unsafe { clock_gettime(CLOCK_THREAD_CPUTIME_ID, &mut time) };
    time.seconds as f64 + 1e-9 * time.nanoseconds as f64
}

fn tokens(toks: &[Tok]) -> Vec<Result<TokenMeta, LexerError>> {
    toks.iter().enumerate().map(|(at, tok)| {
        let symbol = DebugSymbol::at(at as u64);
        if tok.kind == LEXER_ERROR { return Err(LexerError::new(symbol)); }
        Ok(TokenMeta { token: token(tok.kind, tok.value), symbol, newline: tok.newline })
    }).collect()
}

fn run(repeats: usize) {
    let toks: Vec<Tok> = std::io::stdin().lock().lines().map(|line| line.unwrap())
        .filter(|line| !line.starts_with("sheet"))
        .map(|line| parse_line(line.as_bytes()).expect("a line that is no token")).collect();
    let (mut trees, mut errors, mut least) = (0, 0, f64::MAX);
    for _ in 0..repeats {
        let made = tokens(&toks);
        let mut answers = Vec::with_capacity(toks.len() + 1);
        let mut interner = StringInterner;
        let begun = now();
        let mut parser = Parser::new(&mut interner, made.into_iter());
        while let Some(answer) = parser.next_stmt() { answers.push(answer); }
        least = least.min(now() - begun);
        trees = answers.iter().filter(|answer| answer.is_ok()).count();
        errors = answers.len() - trees;
    }
    println!("trees={} errors={} seconds={:.9}", trees, errors, least);
}

fn main() {
    let repeats = std::env::args().nth(1).expect("REPEATS").parse().expect("a number");
    std::thread::Builder::new().stack_size(1 << 28).spawn(move || run(repeats)).unwrap().join().unwrap();
}
