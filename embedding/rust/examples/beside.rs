//! Runs the program `sfplay` beside this one, and hands it one line at a time: `beside PROGRAM NETWORK`, with lines on standard input.
use std::io::{self, BufRead, BufReader, Write};
use std::process::{Child, ChildStdin, ChildStdout, Command, Stdio};

struct Run {
    child: Child,
    to: ChildStdin,
    from: BufReader<ChildStdout>,
}

impl Run {
    fn start(program: &str, network: &str) -> io::Result<Run> {
        let mut child = Command::new(program)
            .arg(network)
            .stdin(Stdio::piped())
            .stdout(Stdio::piped())
            .spawn()?;
        let to = child.stdin.take().unwrap();
        let from = BufReader::new(child.stdout.take().unwrap());
        Ok(Run { child, to, from })
    }

    /// What a line of a step gives: `> T VALUE`, or a line that begins with `!` and ends the run. Nothing where it had ended.
    fn step(&mut self, line: &str) -> io::Result<String> {
        writeln!(self.to, "{line}")?;
        let mut said = String::new();
        self.from.read_line(&mut said)?;
        Ok(said)
    }

    /// The status.
    fn end(mut self) -> io::Result<Option<i32>> {
        drop(self.to);
        Ok(self.child.wait()?.code())
    }
}

fn main() -> io::Result<()> {
    let words: Vec<String> = std::env::args().collect();
    let [_, program, network] = words.as_slice() else {
        return Err(io::Error::other("beside PROGRAM NETWORK"));
    };
    let mut run = Run::start(program, network)?;
    for line in io::stdin().lines() {
        print!("{}", run.step(&line?)?);
    }
    println!("status {:?}", run.end()?);
    Ok(())
}
