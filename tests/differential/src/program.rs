//! Runs a program that reads a simulation text and prints what becomes of it.

use std::io::Write;
use std::path::PathBuf;
use std::process::{Child, ChildStdin, Command, Stdio};
use std::thread;

/// How many run at a time.
const BATCH: usize = 16;

/// A program at a path.
pub struct Program {
    /// Where it is.
    pub path: PathBuf,
}

impl Program {
    /// What the program prints for each text.
    pub fn print(&self, texts: &[Vec<u8>]) -> Vec<Vec<u8>> {
        texts.chunks(BATCH).flat_map(|batch| self.print_batch(batch)).collect()
    }

    /// Starts one for each text, feeds all, then collects what they print.
    fn print_batch(&self, batch: &[Vec<u8>]) -> Vec<Vec<u8>> {
        let mut running: Vec<Child> = batch.iter().map(|_| self.start()).collect();
        thread::scope(|scope| {
            for (child, text) in running.iter_mut().zip(batch) {
                let input = child.stdin.take().expect("the input is a pipe");
                scope.spawn(|| feed(input, text));
            }
            running.into_iter().map(output).collect()
        })
    }

    fn start(&self) -> Child {
        let mut command = Command::new(&self.path);
        command.stdin(Stdio::piped()).stdout(Stdio::piped()).stderr(Stdio::null());
        command.spawn().unwrap_or_else(|error| panic!("{}: {error}", self.path.display()))
    }
}

/// A program may stop reading when it has seen enough, so a failed write is
/// no fault; what it prints counts.
fn feed(mut input: ChildStdin, text: &[u8]) {
    let _ = input.write_all(text);
}

fn output(child: Child) -> Vec<u8> {
    child.wait_with_output().expect("the program can be waited for").stdout
}

#[cfg(test)]
mod tests {
    use super::Program;

    /// `cat` prints what it reads, also where that is more than a pipe holds.
    #[test]
    fn texts_go_in_and_outputs_come_out_in_order() {
        let cat = Program { path: "/bin/cat".into() };
        let texts: Vec<Vec<u8>> = (0..40).map(|number| vec![number; usize::from(number) * 5000]).collect();
        assert_eq!(cat.print(&texts), texts);
    }

    /// `true` reads nothing at all.
    #[test]
    fn a_program_need_not_read() {
        let nothing = Program { path: "/bin/true".into() };
        assert_eq!(nothing.print(&vec![vec![b'x'; 200_000]; 3]), vec![vec![]; 3]);
    }
}
