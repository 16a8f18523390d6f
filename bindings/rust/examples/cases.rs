//! Runs each pair of netstrings of standard input, words and files, as a request, and writes for each what was told and the reply, both as
//! netstrings. `tools/bindings` compares them with what the program does.

use std::io::{self, Read, Write};

fn items(mut bytes: &[u8]) -> Vec<&[u8]> {
    let mut items = Vec::new();
    while let Some(colon) = bytes.iter().position(|byte| *byte == b':') {
        let length: usize = std::str::from_utf8(&bytes[..colon]).unwrap().parse().unwrap();
        let (item, rest) = bytes[colon + 1..].split_at(length);
        items.push(item);
        bytes = &rest[1..];
    }
    items
}

fn request(words: &[u8], files: &[u8]) -> lio::Request {
    let words = items(words).into_iter().map(|word| String::from_utf8(word.to_vec()).unwrap());
    let files = items(files);
    files.chunks_exact(2).fold(lio::Request::new(words), |request, file| request.file(file[0], file[1]))
}

fn main() -> io::Result<()> {
    let mut input = Vec::new();
    io::stdin().read_to_end(&mut input)?;
    let mut output = Vec::new();
    for case in items(&input).chunks_exact(2) {
        let mut reply = Vec::new();
        let told = match lio::run(&request(case[0], case[1])) {
            Ok(response) => {
                lio::push_netstring(&mut reply, &response.said);
                lio::push_netstring(&mut reply, response.message.as_bytes());
                for (name, bytes) in &response.files {
                    lio::push_netstring(&mut reply, name);
                    lio::push_netstring(&mut reply, bytes);
                }
                format!("{} 0 {}", response.status.number(), reply.len())
            }
            Err(error) => format!("{error}"),
        };
        lio::push_netstring(&mut output, told.as_bytes());
        lio::push_netstring(&mut output, &reply);
    }
    io::stdout().write_all(&output)
}
