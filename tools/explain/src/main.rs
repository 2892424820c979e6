//! The program behind `tools/why`, which says how to call it.

use explain::answer;
use isolated::{set_query, work_entries, Graph, Refusal, Settings};
use std::env;
use std::io::{self, IsTerminal, Read, Write};
use std::process::ExitCode;

fn main() -> ExitCode {
    let words: Vec<String> = env::args_os().skip(1).map(|word| word.to_string_lossy().into_owned()).collect();
    let told = answer(&words, standard_input, library);
    // Where nobody reads standard error, there is nobody to tell that.
    let _ = io::stderr().write_all(told.error.as_bytes());
    let mut out = io::stdout().lock();
    match out.write_all(told.output.as_bytes()).and_then(|()| out.flush()) {
        Ok(()) => ExitCode::from(told.status),
        Err(error) => {
            let _ = writeln!(io::stderr(), "why: the answer was not written: {error}.");
            ExitCode::from(2)
        }
    }
}

fn standard_input() -> io::Result<Vec<u8>> {
    let mut input = io::stdin().lock();
    if input.is_terminal() {
        let _ = writeln!(io::stderr(), "why: waiting for the graph on standard input; FILE is given by < FILE");
    }
    let mut text = Vec::new();
    input.read_to_end(&mut text)?;
    Ok(text)
}

fn library(graph: &Graph, set: &[u8], settings: Settings) -> Result<bool, Refusal> {
    let n = graph.vertices();
    set_query(graph.table(), graph.degrees(), set, &mut vec![0; work_entries(n)], n, settings)
}
