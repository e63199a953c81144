//! The kit's clap, whose types take an allocator and borrow their texts, over Rust's. What a command line's words are found to mean is never given back:
//! that is some hundred bytes for each line that is parsed.
use rattle_std::alloc::{AllocError, Global};
use rattle_std::memory::unanswered;
use rattle_std::{String as Text, Vec as Items};
use std::marker::PhantomData;

/// What a word does: Copy, as the kit's.
#[derive(Clone, Copy, Debug, PartialEq, Eq)]
pub enum ArgAction {
    Set,
    Append,
    SetTrue,
}

fn owned(text: &str) -> String {
    String::from(text)
}

fn all(texts: &[&str]) -> Vec<String> {
    texts.iter().map(|it| owned(it)).collect()
}

/// What makes a value of a word.
pub trait IntoParser {
    fn parser(self) -> real::builder::ValueParser;
}

impl IntoParser for &[&str] {
    fn parser(self) -> real::builder::ValueParser {
        real::builder::PossibleValuesParser::new(all(self)).into()
    }
}

/// Numbers from 0 to 255, or some of them.
pub struct Bytes(std::ops::Range<i64>);
impl Bytes {
    pub fn any() -> Bytes {
        Bytes(0..256)
    }

    pub fn range(self, range: std::ops::Range<i64>) -> Bytes {
        Bytes(range)
    }
}

impl IntoParser for Bytes {
    fn parser(self) -> real::builder::ValueParser {
        real::value_parser!(u8).range(self.0).into()
    }
}

/// What reads a value of this type.
#[macro_export]
macro_rules! value_parser {
    (u8) => { $crate::Bytes::any() };
}

/// A word that may stand on a command line.
pub struct Arg<'a>(real::Arg, PhantomData<&'a ()>);
impl<'a> Arg<'a> {
    pub fn new(_: Global, id: &str) -> Arg<'a> {
        Arg(unanswered(|| real::Arg::new(owned(id))), PhantomData)
    }

    fn by(self, change: impl FnOnce(real::Arg) -> real::Arg) -> Arg<'a> {
        Arg(unanswered(|| change(self.0)), PhantomData)
    }

    pub fn required(self, is: bool) -> Self {
        self.by(|it| it.required(is))
    }

    pub fn action(self, action: ArgAction) -> Self {
        self.by(|it| {
            it.action(match action {
                ArgAction::Set => real::ArgAction::Set,
                ArgAction::Append => real::ArgAction::Append,
                ArgAction::SetTrue => real::ArgAction::SetTrue,
            })
        })
    }

    pub fn help(self, text: &str) -> Self {
        self.by(|it| it.help(owned(text)))
    }

    pub fn long(self, text: &str) -> Self {
        self.by(|it| it.long(owned(text)))
    }

    pub fn short(self, letter: char) -> Self {
        self.by(|it| it.short(letter))
    }

    pub fn value_name(self, text: &str) -> Self {
        self.by(|it| it.value_name(owned(text)))
    }

    pub fn value_names(self, texts: &[&str]) -> Self {
        if texts.is_empty() { self } else { self.by(|it| it.value_names(all(texts))) }
    }

    pub fn allow_hyphen_values(self, yes: bool) -> Self {
        self.by(|it| it.allow_hyphen_values(yes))
    }

    pub fn num_args(self, range: std::ops::RangeInclusive<usize>) -> Self {
        self.by(|it| it.num_args(range))
    }

    pub fn require_equals(self, is: bool) -> Self {
        self.by(|it| it.require_equals(is))
    }

    pub fn default_missing_value(self, text: &str) -> Self {
        self.by(|it| it.default_missing_value(owned(text)))
    }

    pub fn default_value(self, text: &str) -> Self {
        self.by(|it| it.default_value(owned(text)))
    }

    pub fn default_values(self, texts: &[&str]) -> Self {
        if texts.is_empty() { self } else { self.by(|it| it.default_values(all(texts))) }
    }

    pub fn conflicts_with_all(self, ids: &[&str]) -> Result<Self, AllocError> {
        Ok(self.by(|it| it.conflicts_with_all(all(ids))))
    }

    pub fn value_parser(self, parser: impl IntoParser) -> Self {
        self.by(|it| it.value_parser(parser.parser()))
    }
}

/// What may stand on a command line.
pub struct Command<'a>(real::Command, PhantomData<&'a ()>);
impl<'a> Command<'a> {
    pub fn new(_: Global, name: &str) -> Command<'a> {
        Command(unanswered(|| real::Command::new(owned(name))), PhantomData)
    }

    fn by(self, change: impl FnOnce(real::Command) -> real::Command) -> Command<'a> {
        Command(unanswered(|| change(self.0)), PhantomData)
    }

    pub fn about(self, text: &str) -> Self {
        self.by(|it| it.about(owned(text)))
    }

    pub fn version(self, text: &str) -> Self {
        self.by(|it| it.version(owned(text)))
    }

    pub fn after_help(self, text: &str) -> Self {
        if text.is_empty() { self } else { self.by(|it| it.after_help(owned(text))) }
    }

    pub fn override_help(self, text: &str) -> Self {
        self.by(|it| it.override_help(owned(text)))
    }

    pub fn no_binary_name(self, is: bool) -> Self {
        self.by(|it| it.no_binary_name(is))
    }

    pub fn subcommand_required(self, is: bool) -> Self {
        self.by(|it| it.subcommand_required(is))
    }

    pub fn arg_required_else_help(self, is: bool) -> Self {
        self.by(|it| it.arg_required_else_help(is))
    }

    pub fn arg(self, arg: Arg<'a>) -> Result<Self, AllocError> {
        Ok(self.by(|it| it.arg(arg.0)))
    }

    pub fn args(self, args: Items<Arg<'a>>) -> Result<Self, AllocError> {
        Ok(self.by(|it| it.args(args.into_iter().map(|arg| arg.0))))
    }

    pub fn subcommands(self, commands: Items<Command<'a>>) -> Result<Self, AllocError> {
        Ok(self.by(|it| it.subcommands(commands.into_iter().map(|one| one.0))))
    }

    pub fn try_get_matches_from<W: Word>(self, words: &'a [W]) -> Result<ArgMatches<'a>, Error> {
        unanswered(|| match self.0.try_get_matches_from(words.iter().map(|it| it.word())) {
            Ok(matches) => Ok(ArgMatches(Box::leak(Box::new(matches)), PhantomData)),
            Err(error) => Err(Error(Some(error))),
        })
    }
}

/// A word of a command line.
pub trait Word {
    fn word(&self) -> String;
}

impl Word for Text {
    fn word(&self) -> String {
        String::from(self.as_str())
    }
}

impl Word for &str {
    fn word(&self) -> String {
        String::from(*self)
    }
}

/// What a command line's words mean.
pub struct ArgMatches<'a>(&'static real::ArgMatches, PhantomData<&'a ()>);
impl<'a> ArgMatches<'a> {
    pub fn get_str(&self, id: &str) -> Option<&'a str> {
        self.0.try_get_one::<String>(id).ok()?.map(|it| it.as_str())
    }

    pub fn get_strs(&self, id: &str) -> Option<&'a [&'a str]> {
        let found = self.0.try_get_many::<String>(id).ok()??;
        Some(unanswered(|| found.map(|it| it.as_str()).collect::<Vec<_>>().leak()))
    }

    pub fn get_flag(&self, id: &str) -> bool {
        self.0.try_get_one::<bool>(id).ok().flatten().is_some_and(|it| *it)
    }

    pub fn get_one<T: Copy + Send + Sync + 'static>(&self, id: &str) -> Option<T> {
        self.0.try_get_one::<T>(id).ok()?.copied()
    }

    pub fn subcommand(&self) -> Option<(&'a str, &'a ArgMatches<'a>)> {
        let (name, found) = self.0.subcommand()?;
        Some((name, unanswered(|| Box::leak(Box::new(ArgMatches(found, PhantomData))))))
    }
}

/// Why a command line is refused; None: memory.
#[derive(Debug)]
pub struct Error(Option<real::Error>);
impl From<AllocError> for Error {
    fn from(_: AllocError) -> Error {
        Error(None)
    }
}

impl Error {
    pub fn kind(&self) -> error::ErrorKind {
        match self.0 {
            None => error::ErrorKind::OutOfMemory,
            Some(_) => error::ErrorKind::Other,
        }
    }

    pub fn exit_code(&self) -> i32 {
        self.0.as_ref().map_or(2, |it| if it.use_stderr() { 2 } else { 0 })
    }

    pub fn print<R>(&self, _: &R) -> std::io::Result<()> {
        self.0.as_ref().map_or(Ok(()), |it| unanswered(|| it.print()))
    }
}

/// Kinds of errors.
pub mod error {
    #[derive(Clone, Copy, Debug, PartialEq, Eq)]
    pub enum ErrorKind {
        OutOfMemory,
        Other,
    }
}
