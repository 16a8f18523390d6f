//! The host in a Rust program: a call over files in memory, by the proved library.
//!
//! ```no_run
//! let request = lio::Request::new(["policy.json", "hello.lio"])
//!     .file("policy.json", std::fs::read("policy.json").unwrap())
//!     .file("hello.lio", std::fs::read("hello.lio").unwrap());
//! let response = lio::run(&request).unwrap();
//! assert_eq!(response.status, lio::Status::Done);
//! ```
//!
//! What a call promises is the contract of `lio_host` in `crates/lio_c`. That the bytes are put together and taken apart rightly
//! here is only tested.

use std::fmt;

/// The library itself, as `bindings/lio.h` has it.
mod raw {
    /// What is told.
    #[repr(C)]
    #[derive(Default)]
    pub struct Told {
        pub status: u32,
        pub place: usize,
        pub needed: usize,
    }

    unsafe extern "C" {
        pub fn lio_host(
            words: *const u8,
            words_length: usize,
            files: *const u8,
            files_length: usize,
            out: *mut u8,
            out_length: usize,
            told: *mut Told,
        );
    }
}

/// How much room the first call gives its reply; where that is too little, it is made again.
const FIRST_ROOM: usize = 1 << 16;

/// The status of a call for which memory was refused.
const NO_MEMORY: u32 = 9;

/// How a call ended, as the program's exit status tells.
#[derive(Debug, Clone, Copy, PartialEq, Eq)]
pub enum Status {
    Done,
    BadWords,
    Missing,
    BadPolicy,
    BadScript,
    BadStart,
    NotARun,
    Clash,
}

impl Status {
    fn of(number: u32) -> Option<Status> {
        Some(match number {
            0 => Status::Done,
            1 => Status::BadWords,
            2 => Status::Missing,
            4 => Status::BadPolicy,
            5 => Status::BadScript,
            6 => Status::BadStart,
            10 => Status::NotARun,
            11 => Status::Clash,
            _ => return None,
        })
    }

    /// The exit status of the program.
    pub fn number(self) -> i32 {
        match self {
            Status::Done => 0,
            Status::BadWords => 1,
            Status::Missing => 2,
            Status::BadPolicy => 4,
            Status::BadScript => 5,
            Status::BadStart => 6,
            Status::NotARun => 10,
            Status::Clash => 11,
        }
    }
}

/// Why there is no response.
#[derive(Debug, Clone, Copy, PartialEq, Eq)]
pub enum Error {
    /// The words are netstrings up to this byte alone.
    WordsBroken(usize),
    /// The word with this number, from 0, isn't UTF-8.
    WordNotText(usize),
    /// The files are netstrings up to this byte alone.
    FilesBroken(usize),
    /// The netstring of the files with this number, from 0, is a name without bytes.
    FileAlone(usize),
    /// The netstring of the files with this number, from 0, is a name that stands before it too.
    FileTwice(usize),
    /// Memory was refused.
    NoMemory,
    /// The library answered by what it never answers.
    Unknown(u32),
}

impl fmt::Display for Error {
    fn fmt(&self, f: &mut fmt::Formatter<'_>) -> fmt::Result {
        match self {
            Error::WordsBroken(place) => write!(f, "the words break at byte {place}"),
            Error::WordNotText(number) => write!(f, "word {number} isn't UTF-8"),
            Error::FilesBroken(place) => write!(f, "the files break at byte {place}"),
            Error::FileAlone(number) => write!(f, "netstring {number} of the files is a name without bytes"),
            Error::FileTwice(number) => write!(f, "netstring {number} of the files is a name that stands before it too"),
            Error::NoMemory => write!(f, "memory was refused"),
            Error::Unknown(status) => write!(f, "the library answered by {status}"),
        }
    }
}

impl std::error::Error for Error {}

/// The words of a call and the files that it finds.
#[derive(Debug, Clone, Default, PartialEq, Eq)]
pub struct Request {
    pub words: Vec<String>,
    pub files: Vec<(Vec<u8>, Vec<u8>)>,
}

impl Request {
    /// A request by words, without files.
    pub fn new<W: Into<String>>(words: impl IntoIterator<Item = W>) -> Request {
        Request { words: words.into_iter().map(Into::into).collect(), files: Vec::new() }
    }

    /// The request with one more file.
    pub fn file(mut self, name: impl Into<Vec<u8>>, bytes: impl Into<Vec<u8>>) -> Request {
        self.files.push((name.into(), bytes.into()));
        self
    }
}

/// What a call answers.
#[derive(Debug, Clone, PartialEq, Eq)]
pub struct Response {
    pub status: Status,
    /// What the program says: the summary of the run.
    pub said: Vec<u8>,
    /// What the program prints on standard error.
    pub message: String,
    /// Each file that it writes, in their order.
    pub files: Vec<(Vec<u8>, Vec<u8>)>,
}

impl Response {
    /// The bytes of a file that was written.
    pub fn get(&self, name: &[u8]) -> Option<&[u8]> {
        self.files.iter().find(|file| file.0 == name).map(|file| file.1.as_slice())
    }
}

/// Appends an item with its length before it.
pub fn push_netstring(out: &mut Vec<u8>, item: &[u8]) {
    out.extend_from_slice(item.len().to_string().as_bytes());
    out.push(b':');
    out.extend_from_slice(item);
    out.push(b',');
}

/// The first item of netstrings, and what stands behind it.
fn split_netstring(bytes: &[u8]) -> Option<(&[u8], &[u8])> {
    let colon = bytes.iter().position(|byte| *byte == b':')?;
    let length: usize = std::str::from_utf8(&bytes[..colon]).ok()?.parse().ok()?;
    let (item, rest) = bytes[colon + 1..].split_at_checked(length)?;
    Some((item, rest.strip_prefix(b",")?))
}

/// The items of netstrings.
fn items(mut bytes: &[u8]) -> Option<Vec<&[u8]>> {
    let mut items = Vec::new();
    while !bytes.is_empty() {
        let (item, rest) = split_netstring(bytes)?;
        items.push(item);
        bytes = rest;
    }
    Some(items)
}

/// What one call told, and its reply where that had room.
#[derive(Debug, Clone, PartialEq, Eq)]
pub struct Told {
    pub status: u32,
    pub place: usize,
    pub needed: usize,
    pub reply: Option<Vec<u8>>,
}

/// One call by the bytes of words and files, with so much room for the reply.
pub fn call(words: &[u8], files: &[u8], room: usize) -> Told {
    let mut out = vec![0; room];
    let mut told = raw::Told::default();
    // SAFETY: slices and a vector of Rust point to so many bytes, are never null and are below 2^63; `out` and `told` are this call's own.
    unsafe {
        raw::lio_host(words.as_ptr(), words.len(), files.as_ptr(), files.len(), out.as_mut_ptr(), out.len(), &mut told);
    }
    let reply = (told.needed <= room).then(|| {
        out.truncate(told.needed);
        out
    });
    Told { status: told.status, place: told.place, needed: told.needed, reply }
}

/// Does what a request asks for, as `lio_host WORDS` does in a folder that has the files.
pub fn run(request: &Request) -> Result<Response, Error> {
    let (mut words, mut files) = (Vec::new(), Vec::new());
    for word in &request.words {
        push_netstring(&mut words, word.as_bytes());
    }
    for (name, bytes) in &request.files {
        push_netstring(&mut files, name);
        push_netstring(&mut files, bytes);
    }
    let mut told = call(&words, &files, FIRST_ROOM);
    while told.reply.is_none() {
        told = call(&words, &files, told.needed);
    }
    match (told.status, told.place) {
        (20, place) => return Err(Error::WordsBroken(place)),
        (21, number) => return Err(Error::WordNotText(number)),
        (22, place) => return Err(Error::FilesBroken(place)),
        (23, number) => return Err(Error::FileAlone(number)),
        (24, number) => return Err(Error::FileTwice(number)),
        (NO_MEMORY, _) => return Err(Error::NoMemory),
        _ => {}
    }
    let unknown = Error::Unknown(told.status);
    let status = Status::of(told.status).ok_or(unknown)?;
    let reply = told.reply.unwrap_or_default();
    let parts = items(&reply).ok_or(unknown)?;
    let [said, message, rest @ ..] = parts.as_slice() else {
        return Err(unknown);
    };
    Ok(Response {
        status,
        said: said.to_vec(),
        message: String::from_utf8_lossy(message).into_owned(),
        files: rest.chunks_exact(2).map(|file| (file[0].to_vec(), file[1].to_vec())).collect(),
    })
}
