
// The text of this folder is the project's: it answers the questions of `ask` (docs/ASK.md) by the crate's own functions above, private ones too.
// `-` says that document 01's domain has no answer of the crate's. Started with `--outside` the program says what the crate does even there: what
// docs/DIFFERENCES.md tells of the Rust.

mod driver {
    use super::*;
    use questions::answer_line;
    use std::io::{self, BufRead, BufWriter};
    use std::panic;

    pub fn answer_all() -> io::Result<()> {
        panic::set_hook(Box::new(|_| ()));
        let input = io::stdin();
        let mut output = BufWriter::new(io::stdout());
        for line in input.lock().lines() {
            writeln!(output, "{}", answer_line(&line?))?;
        }
        output.flush()
    }
}

fn main() {
    driver::answer_all().expect("questions are read and answers written");
}
