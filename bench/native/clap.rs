//! A parser of command lines, as far as the kit's crate of this name is used: names, and options by `--name value` or `--name=value`, each
//! at most once.
#![allow(warnings)]
use rstd::alloc::{AllocError, Global};

pub mod error {
    #[derive(Clone, Copy, Debug, PartialEq, Eq)]
    pub enum ErrorKind {
        OutOfMemory,
        Refused,
    }
    #[derive(Debug)]
    pub struct Error(pub(crate) ErrorKind);
    impl Error {
        pub fn kind(&self) -> ErrorKind {
            self.0
        }
    }
}
use error::{Error, ErrorKind};

#[derive(Clone, Copy)]
pub enum ArgAction {
    Set,
}

pub struct Arg<'a> {
    id: &'a str,
    long: Option<&'a str>,
    is_required: bool,
}

impl<'a> Arg<'a> {
    pub fn new(_: Global, id: &'a str) -> Arg<'a> {
        Arg { id, long: None, is_required: false }
    }
    pub fn required(self, is_required: bool) -> Arg<'a> {
        Arg { is_required, ..self }
    }
    pub fn action(self, _: ArgAction) -> Arg<'a> {
        self
    }
    pub fn long(self, long: &'a str) -> Arg<'a> {
        Arg { long: Some(long), ..self }
    }
}

pub struct Command<'a> {
    args: std::vec::Vec<Arg<'a>>,
}

impl<'a> Command<'a> {
    pub fn new(_: Global, _: &'a str) -> Command<'a> {
        Command { args: std::vec::Vec::new() }
    }
    pub fn no_binary_name(self, _: bool) -> Command<'a> {
        self
    }
    pub fn disable_help_flag(self, _: bool) -> Command<'a> {
        self
    }
    pub fn arg(mut self, arg: Arg<'a>) -> Result<Command<'a>, AllocError> {
        self.args.push(arg);
        Ok(self)
    }

    pub fn try_get_matches_from(self, words: &'a [&'a str]) -> Result<ArgMatches<'a>, Error> {
        let refused = || Error(ErrorKind::Refused);
        let mut found: std::vec::Vec<(&str, &str)> = std::vec::Vec::new();
        let mut left = words.iter().copied();
        while let Some(word) = left.next() {
            let (id, value) = match word.strip_prefix("--") {
                Some(named) => {
                    let (name, joined) = named.split_once('=').map_or((named, None), |(name, value)| (name, Some(value)));
                    let arg = self.args.iter().find(|arg| arg.long == Some(name)).ok_or_else(refused)?;
                    let behind = |next: &mut dyn Iterator<Item = &'a str>| next.next().filter(|it| !it.starts_with('-') || *it == "-");
                    (arg.id, joined.or_else(|| behind(&mut left)).ok_or_else(refused)?)
                }
                None if word.starts_with('-') && word != "-" => return Err(refused()),
                None => {
                    let mut names = self.args.iter().filter(|arg| arg.long.is_none());
                    (names.find(|arg| found.iter().all(|it| it.0 != arg.id)).ok_or_else(refused)?.id, word)
                }
            };
            if found.iter().any(|it| it.0 == id) {
                return Err(refused());
            }
            found.push((id, value));
        }
        if self.args.iter().any(|arg| arg.is_required && found.iter().all(|it| it.0 != arg.id)) {
            return Err(refused());
        }
        Ok(ArgMatches { found })
    }
}

pub struct ArgMatches<'a> {
    found: std::vec::Vec<(&'a str, &'a str)>,
}

impl<'a> ArgMatches<'a> {
    pub fn get_str(&self, id: &str) -> Option<&'a str> {
        self.found.iter().find(|it| it.0 == id).map(|it| it.1)
    }
}
