use crate::failure::Failure;
use crate::number::number;

/// The options that a command knows, without their dashes.
pub struct Known {
    /// Those that stand alone.
    pub flags: &'static [&'static str],
    /// Those that a value follows.
    pub values: &'static [&'static str],
}

/// A command line, taken apart.
pub struct Args {
    files: Vec<String>,
    flags: Vec<String>,
    values: Vec<(String, String)>,
}

impl Args {
    pub fn parse(words: &[String], known: &Known) -> Result<Args, Failure> {
        let mut args = Args { files: Vec::new(), flags: Vec::new(), values: Vec::new() };
        let mut words = words.iter();
        while let Some(word) = words.next() {
            // A dash alone is standard input.
            if !word.starts_with('-') || word == "-" {
                args.files.push(word.clone());
                continue;
            }
            let option = word.strip_prefix("--").unwrap_or("");
            let (name, joined) = match option.split_once('=') {
                Some((name, value)) => (name, Some(value.to_string())),
                None => (option, None),
            };
            if known.values.contains(&name) {
                let value = joined.or_else(|| words.next().cloned());
                let value = value.ok_or_else(|| Failure::Usage(format!("--{name} needs a value behind it")))?;
                args.values.push((name.to_string(), value));
            } else if known.flags.contains(&name) && joined.is_none() {
                args.flags.push(name.to_string());
            } else {
                return Err(Failure::Usage(format!("there is no option {word} here")));
            }
        }
        Ok(args)
    }

    /// The one file that the command works on.
    pub fn file(&self) -> Result<&str, Failure> {
        match &self.files[..] {
            [file] => Ok(file),
            [] => Err(Failure::Usage("name a file to work on".to_string())),
            [_, more, ..] => Err(Failure::Usage(format!("one file at a time; '{more}' is too much"))),
        }
    }

    pub fn flag(&self, name: &str) -> bool {
        self.flags.iter().any(|flag| flag == name)
    }

    /// All values of an option, in order.
    pub fn all<'a>(&'a self, name: &'a str) -> impl Iterator<Item = &'a str> {
        self.values.iter().filter(move |(option, _)| option == name).map(|(_, value)| value.as_str())
    }

    /// The last value of an option.
    pub fn value<'a>(&'a self, name: &'a str) -> Option<&'a str> {
        self.all(name).last()
    }

    /// The last value of an option as a number.
    pub fn number(&self, name: &str, largest: u32) -> Result<Option<u32>, Failure> {
        self.value(name).map(|text| number(text, largest)).transpose()
    }
}
