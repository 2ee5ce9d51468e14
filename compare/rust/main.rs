//! rust_ask: the Rust crate's answers to the questions of the comparison, one line each (compare/README.md).
//!
//! The crate asks for memory before it has looked whether a count or a length can be right, so a worker answers the
//! lines, with an allocator that ends it where more than 1 GiB is asked for at once. Its line is then answered for it,
//! and a new worker goes on with the next.

#![allow(dead_code)]

mod ask;
mod auxtrace;
mod beyond;
mod build_id_event;
mod constants;
mod dso_info;
mod dso_key;
mod error;
mod feature_sections;
mod features;
mod perf_file;
mod record;
mod section;
mod simpleperf;
mod thread_map;

pub use error::{Error, ReadError};

use std::alloc::{GlobalAlloc, Layout, System};
use std::io::{self, BufRead, BufReader, BufWriter, Write};
use std::process::{Child, ChildStdin, ChildStdout, Command, Stdio};

const MOST_BYTES: usize = 1 << 30;
const TOO_MUCH: i32 = 99;

struct Limited;

extern "C" {
    fn _exit(status: i32) -> !;
}

fn bounded(size: usize) {
    if size > MOST_BYTES {
        unsafe { _exit(TOO_MUCH) }
    }
}

unsafe impl GlobalAlloc for Limited {
    unsafe fn alloc(&self, layout: Layout) -> *mut u8 {
        bounded(layout.size());
        System.alloc(layout)
    }

    unsafe fn alloc_zeroed(&self, layout: Layout) -> *mut u8 {
        bounded(layout.size());
        System.alloc_zeroed(layout)
    }

    unsafe fn realloc(&self, memory: *mut u8, layout: Layout, size: usize) -> *mut u8 {
        bounded(size);
        System.realloc(memory, layout, size)
    }

    unsafe fn dealloc(&self, memory: *mut u8, layout: Layout) {
        System.dealloc(memory, layout)
    }
}

#[global_allocator]
static ALLOCATOR: Limited = Limited;

struct Worker {
    child: Child,
    to: ChildStdin,
    from: BufReader<ChildStdout>,
}

impl Worker {
    fn start() -> io::Result<Self> {
        let mut child = Command::new(std::env::current_exe()?)
            .arg("worker")
            .stdin(Stdio::piped())
            .stdout(Stdio::piped())
            .spawn()?;
        let to = child.stdin.take().unwrap();
        let from = BufReader::new(child.stdout.take().unwrap());
        Ok(Self { child, to, from })
    }

    /// The worker's answer to a line that ends in a line feed, or nothing where it ended over it.
    fn ask(&mut self, line: &[u8]) -> io::Result<Option<Vec<u8>>> {
        self.to.write_all(line)?;
        let mut answer = Vec::new();
        self.from.read_until(b'\n', &mut answer)?;
        Ok((answer.last() == Some(&b'\n')).then_some(answer))
    }
}

fn work() -> io::Result<()> {
    std::panic::set_hook(Box::new(|_| ()));
    let mut lines = io::stdin().lock();
    let mut answers = io::stdout().lock();
    let mut line = Vec::new();
    while lines.read_until(b'\n', &mut line)? > 0 {
        line.pop();
        let answer = std::panic::catch_unwind(|| ask::answer(&line));
        let mut answer = answer.unwrap_or_else(|_| "rust: panicked".to_owned());
        answer.push('\n');
        answers.write_all(answer.as_bytes())?;
        answers.flush()?;
        line.clear();
    }
    Ok(())
}

fn main() -> io::Result<()> {
    let arguments: Vec<String> = std::env::args().skip(1).collect();
    match arguments.iter().map(String::as_str).collect::<Vec<_>>()[..] {
        [] => (),
        ["worker"] => return work(),
        _ => {
            println!("{}", beyond::answer(&arguments).unwrap_or("bad arguments".to_owned()));
            return Ok(());
        }
    }
    let mut lines = io::stdin().lock();
    let mut answers = BufWriter::new(io::stdout().lock());
    let mut worker = Worker::start()?;
    let mut line = Vec::new();
    while lines.read_until(b'\n', &mut line)? > 0 {
        if line.last() != Some(&b'\n') {
            line.push(b'\n');
        }
        match worker.ask(&line)? {
            Some(answer) => answers.write_all(&answer)?,
            None => {
                let text: &[u8] = match worker.child.wait()?.code() {
                    Some(TOO_MUCH) => b"rust: too much memory\n",
                    _ => b"rust: died\n",
                };
                answers.write_all(text)?;
                worker = Worker::start()?;
            }
        }
        line.clear();
    }
    answers.flush()?;
    drop(worker.to);
    worker.child.wait()?;
    Ok(())
}
