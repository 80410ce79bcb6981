//! A plain Rust program that does the job of `spell_script`: it reads a script from standard input, holds its statements
//! and expressions, and prints it in the standard layout, or prints `refused N at P`. Written from docs/LANGUAGE.md and
//! docs/REFUSALS.md alone, as a yardstick for speed. It is compared with `spell_script`, not verified.

use std::collections::HashMap;
use std::env;
use std::hint::black_box;
use std::io::{self, Read, Write};
use std::time::Instant;

const MAX_TEXT: usize = 1_048_576;
const MAX_NAME: usize = 15;
const MAX_NUMERAL: u64 = 2_147_483_647;
const MAX_VARIABLES: usize = 256;
const MAX_NESTING: usize = 20;
const MAX_DEPTH: usize = 20;

struct Refusal {
    number: u32,
    place: usize,
}

type Answer<T> = Result<T, Refusal>;

fn refuse<T>(number: u32, place: usize) -> Answer<T> {
    Err(Refusal { number, place })
}

#[derive(Clone, Copy, PartialEq, Eq)]
enum Token<'t> {
    Name(&'t [u8]),
    Numeral(u32),
    Var,
    Skip,
    If,
    Then,
    Else,
    End,
    While,
    Do,
    Write,
    Stop,
    Declassify,
    Max,
    Becomes,
    Colon,
    Semicolon,
    Open,
    Close,
    Plus,
    Minus,
    Times,
    Over,
    Equals,
    Less,
    Bar,
    EndOfText,
}

#[derive(Clone, Copy)]
enum Operator {
    Add,
    Subtract,
    Multiply,
    Divide,
    Equal,
    Less,
    Max,
    Or,
}

/// A node of an expression. All nodes of a program stand in one vector, each operator before its two parts.
#[derive(Clone, Copy)]
enum Node {
    Numeral(u32),
    Variable(usize),
    Both(Operator),
}

/// An expression: the place of its first node.
#[derive(Clone, Copy)]
struct Expression(usize);

enum Statement {
    Skip,
    Assign(usize, Expression),
    Release(usize, Expression),
    If(Expression, Vec<Statement>, Vec<Statement>),
    While(Expression, Vec<Statement>),
    Write(u32, Expression),
    Stop(u32),
}

struct Declaration<'t> {
    name: &'t [u8],
    level: u32,
}

struct Program<'t> {
    declarations: Vec<Declaration<'t>>,
    statements: Vec<Statement>,
    nodes: Vec<Node>,
}

// ---------------------------------------------------------------- letters

fn is_blank(byte: u8) -> bool {
    matches!(byte, b' ' | b'\t' | b'\n' | b'\r')
}

fn runs_on(byte: u8) -> bool {
    byte.is_ascii_alphanumeric() || byte == b'_'
}

fn keyword(word: &[u8]) -> Option<Token<'static>> {
    Some(match word {
        b"var" => Token::Var,
        b"skip" => Token::Skip,
        b"if" => Token::If,
        b"then" => Token::Then,
        b"else" => Token::Else,
        b"end" => Token::End,
        b"while" => Token::While,
        b"do" => Token::Do,
        b"write" => Token::Write,
        b"stop" => Token::Stop,
        b"declassify" => Token::Declassify,
        b"max" => Token::Max,
        _ => return None,
    })
}

fn numeral(digits: &[u8], place: usize) -> Answer<Token<'static>> {
    if digits[0] == b'0' && digits.len() > 1 {
        return refuse(2, place);
    }
    let mut number = 0u64;
    for digit in digits {
        number = number * 10 + u64::from(digit - b'0');
        if number > MAX_NUMERAL {
            return refuse(2, place);
        }
    }
    Ok(Token::Numeral(number as u32))
}

/// The token that begins at or behind `from`, its offset, and the offset behind it.
fn cut(text: &[u8], from: usize) -> Answer<(Token<'_>, usize, usize)> {
    let Some(blanks) = text[from..].iter().position(|&byte| !is_blank(byte)) else {
        return Ok((Token::EndOfText, text.len(), text.len()));
    };
    let place = from + blanks;
    let rest = &text[place..];
    let run = |goes_on: fn(u8) -> bool| rest.iter().position(|&byte| !goes_on(byte)).unwrap_or(rest.len());
    let (token, length) = match rest[0] {
        b'A'..=b'Z' | b'a'..=b'z' | b'_' => {
            let length = run(runs_on);
            let word = &rest[..length];
            match keyword(word) {
                Some(token) => (token, length),
                None if length > MAX_NAME => return refuse(2, place),
                None => (Token::Name(word), length),
            }
        }
        b'0'..=b'9' => {
            let length = run(|byte| byte.is_ascii_digit());
            (numeral(&rest[..length], place)?, length)
        }
        b':' if rest.get(1) == Some(&b'=') => (Token::Becomes, 2),
        b':' => (Token::Colon, 1),
        b';' => (Token::Semicolon, 1),
        b'(' => (Token::Open, 1),
        b')' => (Token::Close, 1),
        b'+' => (Token::Plus, 1),
        b'-' => (Token::Minus, 1),
        b'*' => (Token::Times, 1),
        b'/' => (Token::Over, 1),
        b'=' => (Token::Equals, 1),
        b'<' => (Token::Less, 1),
        b'|' => (Token::Bar, 1),
        _ => return refuse(1, place),
    };
    Ok((token, place, place + length))
}

// ---------------------------------------------------------------- grammar

struct Reader<'t> {
    text: &'t [u8],
    token: Token<'t>,
    place: usize,
    behind: usize,
    variables: HashMap<&'t [u8], usize>,
    nodes: Vec<Node>,
}

impl<'t> Reader<'t> {
    fn new(text: &'t [u8]) -> Answer<Self> {
        let (token, place, behind) = cut(text, 0)?;
        Ok(Reader { text, token, place, behind, variables: HashMap::new(), nodes: Vec::new() })
    }

    fn advance(&mut self) -> Answer<()> {
        (self.token, self.place, self.behind) = cut(self.text, self.behind)?;
        Ok(())
    }

    fn unexpected<T>(&self) -> Answer<T> {
        refuse(3, self.place)
    }

    fn expect(&mut self, wanted: Token<'static>) -> Answer<()> {
        if self.token != wanted {
            return self.unexpected();
        }
        self.advance()
    }

    fn numeral(&mut self) -> Answer<u32> {
        let Token::Numeral(number) = self.token else {
            return self.unexpected();
        };
        self.advance()?;
        Ok(number)
    }

    fn variable(&mut self, name: &'t [u8]) -> Answer<usize> {
        match self.variables.get(name) {
            Some(&variable) => {
                self.advance()?;
                Ok(variable)
            }
            None => refuse(4, self.place),
        }
    }

    fn program(mut self) -> Answer<Program<'t>> {
        let mut declarations = Vec::new();
        while self.token == Token::Var {
            self.advance()?;
            declarations.push(self.declaration()?);
        }
        let statements = self.list(0)?;
        if self.token != Token::EndOfText {
            return self.unexpected();
        }
        Ok(Program { declarations, statements, nodes: self.nodes })
    }

    fn declaration(&mut self) -> Answer<Declaration<'t>> {
        let Token::Name(name) = self.token else {
            return self.unexpected();
        };
        let variable = self.variables.len();
        if variable == MAX_VARIABLES || self.variables.insert(name, variable).is_some() {
            return refuse(5, self.place);
        }
        self.advance()?;
        self.expect(Token::Colon)?;
        let level = self.numeral()?;
        self.expect(Token::Semicolon)?;
        Ok(Declaration { name, level })
    }

    /// Statements as far as they go. The caller looks at the token behind them.
    fn list(&mut self, nesting: usize) -> Answer<Vec<Statement>> {
        let mut statements = Vec::new();
        loop {
            let statement = match self.token {
                Token::Skip => {
                    self.advance()?;
                    Statement::Skip
                }
                Token::Name(name) => {
                    let variable = self.variable(name)?;
                    self.expect(Token::Becomes)?;
                    if self.token == Token::Declassify {
                        self.advance()?;
                        self.expect(Token::Open)?;
                        let value = self.expression()?;
                        self.expect(Token::Close)?;
                        Statement::Release(variable, value)
                    } else {
                        Statement::Assign(variable, self.expression()?)
                    }
                }
                Token::If | Token::While if nesting == MAX_NESTING => return refuse(6, self.place),
                Token::If => {
                    self.advance()?;
                    let test = self.expression()?;
                    self.expect(Token::Then)?;
                    let then = self.list(nesting + 1)?;
                    self.expect(Token::Else)?;
                    let otherwise = self.list(nesting + 1)?;
                    self.expect(Token::End)?;
                    Statement::If(test, then, otherwise)
                }
                Token::While => {
                    self.advance()?;
                    let test = self.expression()?;
                    self.expect(Token::Do)?;
                    let body = self.list(nesting + 1)?;
                    self.expect(Token::End)?;
                    Statement::While(test, body)
                }
                Token::Write => {
                    self.advance()?;
                    let level = self.numeral()?;
                    Statement::Write(level, self.expression()?)
                }
                Token::Stop => {
                    self.advance()?;
                    Statement::Stop(self.numeral()?)
                }
                _ => return Ok(statements),
            };
            self.expect(Token::Semicolon)?;
            statements.push(statement);
        }
    }

    fn expression(&mut self) -> Answer<Expression> {
        let first = self.nodes.len();
        self.nodes_of_one(0)?;
        Ok(Expression(first))
    }

    fn nodes_of_one(&mut self, depth: usize) -> Answer<()> {
        match self.token {
            Token::Numeral(number) => {
                self.advance()?;
                self.nodes.push(Node::Numeral(number));
            }
            Token::Name(name) => {
                let variable = self.variable(name)?;
                self.nodes.push(Node::Variable(variable));
            }
            Token::Open if depth == MAX_DEPTH => return refuse(6, self.place),
            Token::Open => {
                self.advance()?;
                let here = self.nodes.len();
                // The operator is not known before its left part is read.
                self.nodes.push(Node::Both(Operator::Add));
                self.nodes_of_one(depth + 1)?;
                self.nodes[here] = Node::Both(self.operator()?);
                self.nodes_of_one(depth + 1)?;
                self.expect(Token::Close)?;
            }
            _ => return self.unexpected(),
        }
        Ok(())
    }

    fn operator(&mut self) -> Answer<Operator> {
        let operator = match self.token {
            Token::Plus => Operator::Add,
            Token::Minus => Operator::Subtract,
            Token::Times => Operator::Multiply,
            Token::Over => Operator::Divide,
            Token::Equals => Operator::Equal,
            Token::Less => Operator::Less,
            Token::Max => Operator::Max,
            Token::Bar => Operator::Or,
            _ => return self.unexpected(),
        };
        self.advance()?;
        Ok(operator)
    }
}

// ---------------------------------------------------------------- layout

struct Speller<'p> {
    program: &'p Program<'p>,
    out: Vec<u8>,
}

impl Speller<'_> {
    fn put(&mut self, piece: &str) {
        self.out.extend_from_slice(piece.as_bytes());
    }

    fn put_number(&mut self, number: u32) {
        write!(self.out, "{number} ").expect("a vector takes every byte");
    }

    fn put_name(&mut self, variable: usize) {
        self.out.extend_from_slice(self.program.declarations[variable].name);
        self.out.push(b' ');
    }

    fn program(mut self) -> Vec<u8> {
        let program = self.program;
        for (variable, declaration) in program.declarations.iter().enumerate() {
            self.put("var ");
            self.put_name(variable);
            self.put(": ");
            self.put_number(declaration.level);
            self.put(";\n");
        }
        self.list(&program.statements);
        self.out
    }

    fn list(&mut self, statements: &[Statement]) {
        for statement in statements {
            match statement {
                Statement::Skip => self.put("skip "),
                Statement::Assign(variable, value) => {
                    self.put_name(*variable);
                    self.put(":= ");
                    self.expression(*value);
                }
                Statement::Release(variable, value) => {
                    self.put_name(*variable);
                    self.put(":= declassify ( ");
                    self.expression(*value);
                    self.put(") ");
                }
                Statement::If(test, then, otherwise) => {
                    self.put("if ");
                    self.expression(*test);
                    self.put("then\n");
                    self.list(then);
                    self.put("else\n");
                    self.list(otherwise);
                    self.put("end ");
                }
                Statement::While(test, body) => {
                    self.put("while ");
                    self.expression(*test);
                    self.put("do\n");
                    self.list(body);
                    self.put("end ");
                }
                Statement::Write(level, value) => {
                    self.put("write ");
                    self.put_number(*level);
                    self.expression(*value);
                }
                Statement::Stop(number) => {
                    self.put("stop ");
                    self.put_number(*number);
                }
            }
            self.put(";\n");
        }
    }

    fn expression(&mut self, expression: Expression) {
        self.nodes_from(expression.0);
    }

    /// Spells the expression whose first node stands at `place`, and tells the place behind its last.
    fn nodes_from(&mut self, place: usize) -> usize {
        match self.program.nodes[place] {
            Node::Numeral(number) => {
                self.put_number(number);
                place + 1
            }
            Node::Variable(variable) => {
                self.put_name(variable);
                place + 1
            }
            Node::Both(operator) => {
                self.put("( ");
                let right = self.nodes_from(place + 1);
                self.put(match operator {
                    Operator::Add => "+ ",
                    Operator::Subtract => "- ",
                    Operator::Multiply => "* ",
                    Operator::Divide => "/ ",
                    Operator::Equal => "= ",
                    Operator::Less => "< ",
                    Operator::Max => "max ",
                    Operator::Or => "| ",
                });
                let behind = self.nodes_from(right);
                self.put(") ");
                behind
            }
        }
    }
}

// ---------------------------------------------------------------- the program

fn answer(text: &[u8]) -> Answer<Vec<u8>> {
    if text.len() > MAX_TEXT {
        return refuse(8, 0);
    }
    let program = Reader::new(text)?.program()?;
    let spelled = Speller { program: &program, out: Vec::new() }.program();
    if spelled.len() > MAX_TEXT {
        return refuse(8, 0);
    }
    Ok(spelled)
}

// The least time of reading the text, of 200 rounds, in nanoseconds. The program read is given up in it.
fn time_reading(text: &[u8]) -> u128 {
    let round = || {
        let start = Instant::now();
        let read = Reader::new(black_box(text)).and_then(Reader::program).is_ok();
        black_box(read);
        start.elapsed().as_nanos()
    };
    (0..200).map(|_| round()).min().unwrap_or(0)
}

fn main() -> io::Result<()> {
    let mut text = Vec::new();
    // One byte beyond the limit is enough to know that a text is too long.
    io::stdin().lock().take(MAX_TEXT as u64 + 1).read_to_end(&mut text)?;
    if env::args().nth(1).as_deref() == Some("time") {
        println!("read {} bytes 0 s {} ns", text.len(), time_reading(&text));
        return Ok(());
    }
    let output = answer(&text).unwrap_or_else(|refusal| format!("refused {} at {}\n", refusal.number, refusal.place).into_bytes());
    io::stdout().lock().write_all(&output)
}
