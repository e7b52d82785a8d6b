//! A line of a script.

use std::fmt;

use super::{hex, unhex};

#[derive(Clone, Debug, PartialEq, Eq)]
pub enum Call {
    Format { blocks: u32 },
    Resume { file: String },
    Write { block: u32, value: Vec<u8> },
    Read { block: u32, buffer: Option<usize> },
    Beat { times: Option<u32> },
    Face { buffer: Option<usize> },
    Save { buffer: Option<usize>, file: Option<String> },
}

impl Call {
    /// The first word of the line, and of its answers.
    pub fn name(&self) -> &'static str {
        match self {
            Call::Format { .. } => "format",
            Call::Resume { .. } => "resume",
            Call::Write { .. } => "write",
            Call::Read { .. } => "read",
            Call::Beat { .. } => "beat",
            Call::Face { .. } => "face",
            Call::Save { .. } => "save",
        }
    }

    /// The call of a line that is not blank and no remark; nothing where the line is malformed.
    pub fn parse(line: &str) -> Option<Call> {
        let words: Vec<&str> = line.split_ascii_whitespace().collect();
        Some(match words[..] {
            ["format", blocks] => Call::Format { blocks: blocks.parse().ok()? },
            ["resume", file] => Call::Resume { file: file.into() },
            ["write", block, value] => {
                let value = if value == "-" { Vec::new() } else { unhex(value)? };
                Call::Write { block: block.parse().ok()?, value }
            }
            ["read", block] => Call::Read { block: block.parse().ok()?, buffer: None },
            ["read", block, buffer] => {
                Call::Read { block: block.parse().ok()?, buffer: Some(buffer.parse().ok()?) }
            }
            ["beat"] => Call::Beat { times: None },
            ["beat", times] => Call::Beat { times: Some(times.parse().ok()?) },
            ["face"] => Call::Face { buffer: None },
            ["face", buffer] => Call::Face { buffer: Some(buffer.parse().ok()?) },
            ["save", ref rest @ ..] => parse_save(rest)?,
            _ => return None,
        })
    }
}

fn parse_save(words: &[&str]) -> Option<Call> {
    Some(match *words {
        [] => Call::Save { buffer: None, file: None },
        [word] => match word.parse() {
            Ok(buffer) => Call::Save { buffer: Some(buffer), file: None },
            Err(_) => Call::Save { buffer: None, file: Some(word.into()) },
        },
        [buffer, file] => Call::Save { buffer: Some(buffer.parse().ok()?), file: Some(file.into()) },
        _ => return None,
    })
}

impl fmt::Display for Call {
    fn fmt(&self, f: &mut fmt::Formatter) -> fmt::Result {
        f.write_str(self.name())?;
        match self {
            Call::Format { blocks } => write!(f, " {blocks}"),
            Call::Resume { file } => write!(f, " {file}"),
            Call::Write { block, value } if value.is_empty() => write!(f, " {block} -"),
            Call::Write { block, value } => write!(f, " {block} {}", hex(value)),
            Call::Read { block, buffer } => {
                write!(f, " {block}")?;
                optional(f, buffer)
            }
            Call::Beat { times } => optional(f, times),
            Call::Face { buffer } => optional(f, buffer),
            Call::Save { buffer, file } => {
                optional(f, buffer)?;
                optional(f, file)
            }
        }
    }
}

fn optional(f: &mut fmt::Formatter, word: &Option<impl fmt::Display>) -> fmt::Result {
    match word {
        Some(word) => write!(f, " {word}"),
        None => Ok(()),
    }
}

#[cfg(test)]
mod tests {
    use super::Call;

    #[test]
    fn a_line_parses_to_what_prints_it() {
        let lines = "format 2\nresume map.bin\nwrite 0 4142\nwrite 1 -\nread 0\nread 0 47\nbeat\nbeat 3\n\
                     face\nface 4\nsave\nsave 20\nsave map.bin\nsave 20 map.bin";
        for line in lines.lines() {
            assert_eq!(Call::parse(line).expect(line).to_string(), line);
        }
    }
}
