//! Calls of the library, good and bad.

use lio::{call, push_netstring, run, Error, Request, Status};

const POLICY: &str = include_str!("../../../examples/hello/policy.json");
const SCRIPT: &str = include_str!("../../../examples/hello/hello.lio");

fn hello() -> Request {
    Request::new(["policy.json", "hello.lio"]).file("policy.json", POLICY).file("hello.lio", SCRIPT)
}

fn netstrings(items: &[&[u8]]) -> Vec<u8> {
    let mut out = Vec::new();
    for item in items {
        push_netstring(&mut out, item);
    }
    out
}

fn hello_files() -> Vec<u8> {
    netstrings(&[b"policy.json", POLICY.as_bytes(), b"hello.lio", SCRIPT.as_bytes()])
}

#[test]
fn a_text_is_sent() {
    let response = run(&hello()).unwrap();
    assert_eq!(response.status, Status::Done);
    assert_eq!(response.said, b"tasks 1\nended 1\nturns 2\nchannel out 2\n");
    assert_eq!(response.message, "");
    assert_eq!(response.files, [(b"out.txt".to_vec(), b"hi".to_vec())]);
    assert_eq!(response.get(b"out.txt"), Some(b"hi".as_slice()));
}

#[test]
fn refusals_are_told() {
    let response = run(&Request::new(["policy.json", "hello.lio"])).unwrap();
    assert_eq!(response.status, Status::Missing);
    assert!(response.message.starts_with("lio_host: Missing(policy.json): "), "{}", response.message);
    assert!(response.files.is_empty() && response.said.is_empty());
    assert_eq!(run(&Request::default()).unwrap().status, Status::BadWords);
    let mut workers = hello();
    workers.words.extend(["--workers".into(), "2".into()]);
    assert_eq!(run(&workers).unwrap().status, Status::BadWords);
    assert_eq!(run(&hello().file("hello.lio", "")), Err(Error::FileTwice(4)));
}

#[test]
fn bundles_that_are_cut_are_refused() {
    let words = netstrings(&[b"policy.json", b"hello.lio"]);
    let files = hello_files();
    // where each netstring ends
    let ends = [15, 15 + netstrings(&[POLICY.as_bytes()]).len()];
    for cut in 0..files.len() {
        let told = call(&words, &files[..cut], 1 << 12);
        let whole = match cut {
            0 => 2,
            cut if cut == ends[0] => 23,
            cut if cut == ends[1] => 2,
            cut if cut == ends[1] + 12 => 23,
            _ => 22,
        };
        assert_eq!(told.status, whole, "{cut}");
        if told.status == 22 {
            let place = [ends[1] + 12, ends[1], ends[0], 0].into_iter().find(|end| *end <= cut).unwrap();
            assert_eq!((told.place, told.needed), (place, 0), "{cut}");
        }
    }
    for cut in 1..words.len() {
        let told = call(&words[..cut], &files, 1 << 12);
        let (status, place) = if cut == 15 { (1, 0) } else { (20, if cut < 15 { 0 } else { 15 }) };
        assert_eq!((told.status, told.place), (status, place), "{cut}");
    }
}

#[test]
fn lengths_that_lie_are_refused() {
    for bytes in ["6:hello,", "4:hello,", "05:hello,", "5 :hello,", "+5:hello,", "5:hello;", ":,", "x", "18446744073709551615:a,", "18446744073709551616:a,", "-1:a,"] {
        let told = call(bytes.as_bytes(), b"", 64);
        assert_eq!((told.status, told.place, told.needed), (20, 0, 0), "{bytes}");
        let told = call(b"", &[b"1:a,", bytes.as_bytes()].concat(), 64);
        assert_eq!((told.status, told.place, told.needed), (22, 4, 0), "{bytes}");
    }
    assert_eq!(call(b"1:a,2:\xff\xfe,", b"", 64).status, 21);
    assert_eq!(call(b"1:a,2:\xff\xfe,", b"", 64).place, 1);
}

#[test]
fn a_reply_without_room_leaves_all_as_it_was() {
    let words = netstrings(&[b"policy.json", b"hello.lio"]);
    let files = hello_files();
    let whole = call(&words, &files, 1 << 12);
    for room in [0, 1, whole.needed - 1] {
        let told = call(&words, &files, room);
        assert_eq!((told.status, told.needed, told.reply), (0, whole.needed, None));
    }
    assert_eq!(call(&words, &files, whole.needed), whole);
}

#[test]
fn threads_call_at_once() {
    let threads: Vec<_> = (0..4).map(|_| std::thread::spawn(|| (0..50).all(|_| run(&hello()).unwrap().status == Status::Done))).collect();
    assert!(threads.into_iter().all(|thread| thread.join().unwrap()));
}
