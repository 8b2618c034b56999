//! The text of cases and answers (vectors/FORMAT.md).

mod set;

use crate::cases::{Answer, Case, State, Words};
use crate::record::Span;
use std::fmt::{self, Display, Formatter};
use std::str::FromStr;

impl FromStr for Case {
    type Err = String;

    fn from_str(line: &str) -> Result<Case, String> {
        let mut tokens = Tokens(line.split(' '));
        let verb = tokens.next()?;
        let case = match verb {
            "mcheck" | "mload" | "mrun" => Case::Set(tokens.set_case(verb)?),
            _ => tokens.case(verb)?,
        };
        match tokens.0.next() {
            None => Ok(case),
            Some(token) => Err(format!("{token} stands after the case")),
        }
    }
}

impl Tokens<'_> {
    /// Reads the rest of a call that takes one record, or a run file.
    fn case(&mut self, verb: &str) -> Result<Case, String> {
        let record = self.bytes()?;
        Ok(match verb {
            "check" => Case::Check { record, results: self.bytes()?, workspace: self.words()? },
            "load" => Case::Load {
                record,
                parameters: self.words()?,
                memory: self.words()?,
                stack: self.words()?,
            },
            "run" => Case::Run { record, budget: self.number()?, machine: self.machine()? },
            "line" => Case::Line { record, offset: self.number()? },
            "span" => Case::Span { record, offset: self.number()? },
            "mend" => Case::Mend { record, out: self.bytes()?, places: self.words()? },
            "report" => Case::Report { file: record },
            _ => return Err(format!("unknown verb {verb}")),
        })
    }
}

impl Display for Case {
    fn fmt(&self, f: &mut Formatter) -> fmt::Result {
        write!(f, "{}", self.verb())?;
        let bytes = match self {
            Case::Report { file } => Some(&file[..]),
            _ => self.record(),
        };
        if let Some(bytes) = bytes {
            write!(f, " {}", Hex(bytes))?;
        }
        match self {
            Case::Check { results, workspace, .. } => {
                write!(f, " {} {}", Hex(results), List(workspace))
            }
            Case::Load { parameters, memory, stack, .. } => {
                write!(f, " {} {} {}", List(parameters), List(memory), List(stack))
            }
            Case::Run { budget, machine, .. } => write!(f, " {budget} {machine}"),
            Case::Line { offset, .. } | Case::Span { offset, .. } => write!(f, " {offset}"),
            Case::Mend { out, places, .. } => write!(f, " {} {}", Hex(out), List(places)),
            Case::Report { .. } => Ok(()),
            Case::Set(case) => write!(f, " {case}"),
        }
    }
}

impl Display for Answer {
    fn fmt(&self, f: &mut Formatter) -> fmt::Result {
        match self {
            Answer::Check { number, workspace } => write!(f, "check {number} {}", List(workspace)),
            Answer::Load { number, machine } => write!(f, "load {number} {machine}"),
            Answer::Run { ended: Ok(outcome), machine } => {
                write!(f, "run {} {machine}", Numbers(outcome))
            }
            Answer::Run { ended: Err(number), machine } => {
                write!(f, "run refused {number} {machine}")
            }
            Answer::Line(Ok(line)) => write!(f, "line {line}"),
            Answer::Line(Err(number)) => write!(f, "line refused {number}"),
            Answer::Span(Ok(Span::Found { first, last, line })) => {
                write!(f, "span {first} {last} {line}")
            }
            Answer::Span(Ok(Span::Outside)) => write!(f, "span outside"),
            Answer::Span(Err(number)) => write!(f, "span refused {number}"),
            Answer::Mend { number, counts, out, places } => {
                write!(f, "mend {number} {} {} {}", Numbers(counts), Hex(out), List(places))
            }
            Answer::Report(page) => write!(f, "report {}", Hex(page)),
            Answer::SetCheck { number, workspace } => {
                write!(f, "mcheck {number} {}", List(workspace))
            }
            Answer::SetLoad { number, machine } => write!(f, "mload {number} {machine}"),
            Answer::SetRun { ended: Ok([end, at, steps, module]), machine } => {
                write!(f, "mrun {end} {module} {at} {steps} {machine}")
            }
            Answer::SetRun { ended: Err(number), machine } => {
                write!(f, "mrun refused {number} {machine}")
            }
        }
    }
}

/// Bytes as hex digits, `-` for none.
pub struct Hex<'a>(pub &'a [u8]);

impl Display for Hex<'_> {
    fn fmt(&self, f: &mut Formatter) -> fmt::Result {
        if self.0.is_empty() {
            return write!(f, "-");
        }
        self.0.iter().try_for_each(|byte| write!(f, "{byte:02x}"))
    }
}

struct Numbers<'a>(&'a [u32]);

impl Display for Numbers<'_> {
    fn fmt(&self, f: &mut Formatter) -> fmt::Result {
        let numbers: Vec<String> = self.0.iter().map(u32::to_string).collect();
        write!(f, "{}", numbers.join(" "))
    }
}

/// WORDS: how many, then the words, with `k*w` for k > 1 equal ones in a row.
struct List<'a, T>(&'a [T]);

impl<T: PartialEq + Display> Display for List<'_, T> {
    fn fmt(&self, f: &mut Formatter) -> fmt::Result {
        write!(f, "{}", self.0.len())?;
        self.0.chunk_by(|one, next| one == next).try_for_each(|equal| match equal {
            [word] => write!(f, " {word}"),
            _ => write!(f, " {}*{}", equal.len(), equal[0]),
        })
    }
}

struct Tokens<'a>(std::str::Split<'a, char>);

impl<'a> Tokens<'a> {
    fn next(&mut self) -> Result<&'a str, String> {
        self.0.next().ok_or_else(|| "the line is too short".to_string())
    }

    fn number<T: FromStr>(&mut self) -> Result<T, String> {
        parse(self.next()?)
    }

    fn bytes(&mut self) -> Result<Vec<u8>, String> {
        match self.next()? {
            "-" => Ok(vec![]),
            hex if hex.is_ascii() && hex.len() % 2 == 0 => (0..hex.len() / 2)
                .map(|i| u8::from_str_radix(&hex[2 * i..2 * i + 2], 16))
                .collect::<Result<_, _>>()
                .map_err(|error| error.to_string()),
            other => Err(format!("{other} is no byte string")),
        }
    }

    fn words<T: FromStr + Clone>(&mut self) -> Result<Vec<T>, String> {
        let count = self.number()?;
        let mut words = Vec::new();
        while words.len() < count {
            let token = self.next()?;
            let (times, word) = token.split_once('*').unwrap_or(("1", token));
            words.resize(words.len() + parse::<usize>(times)?, parse(word)?);
        }
        if words.len() > count {
            return Err(format!("more than {count} words"));
        }
        Ok(words)
    }

    fn state(&mut self) -> Result<State, String> {
        let mut state = State::default();
        for word in &mut state {
            *word = self.number()?;
        }
        Ok(state)
    }

    fn machine(&mut self) -> Result<Words, String> {
        Ok(Words { state: self.state()?, memory: self.words()?, stack: self.words()? })
    }
}

fn parse<T: FromStr>(token: &str) -> Result<T, String> {
    token.parse().map_err(|_| format!("{token} is no number here"))
}

#[cfg(test)]
mod tests {
    use crate::cases::Case;

    #[test]
    fn cases_read_as_they_are_written() {
        let lines = [
            "check 000000 - 5 2*0 1 2*65535",
            "load - 0 3 3*7 2 1 2",
            "run 0f 4294967295 2 3 4 5 6 7 0 1 9",
            "line ff 12",
            "span - 4294967295",
            "mend 0b eeee 3 2*777 0",
            "mend - - 0",
            "report 54524b",
            "mcheck 1 2 7 00 4294967295 - - 0001 3 2*5 65535",
            "mload 1 0 - 2 2*9 0002e9 3 3*7 0",
            "mrun 2 0 ff 9 - 12 1 2 3 4 5 6 7 - 1 8 2 2*0",
        ];
        for line in lines {
            assert_eq!(line.parse::<Case>().map(|case| case.to_string()).as_deref(), Ok(line));
        }
        let malformed = ["", "check", "load - 0 3 4*7 0", "line ff 12 13", "line f 1", "run"];
        let malformed = malformed.into_iter().chain(["span 00", "mend - -", "mend - - 1"]);
        let malformed = malformed.chain(["mcheck 0 1 0 -", "mload 2 0 - 0 - 0 0", "mrun 0 1"]);
        for line in malformed {
            assert!(line.parse::<Case>().is_err(), "{line}");
        }
    }
}
