//! Our side of a comparison: the programs, a process for each input, and the linked archive.

use std::io::{Read, Write};
use std::path::{Path, PathBuf};
use std::process::{Command, Stdio};

use crate::cases::Case;

#[cfg(linked)]
use crate::archive;

#[cfg(not(linked))]
mod archive {
    pub fn run(_: &[u8], _: &[u8], _: &mut [u8], _: u16) -> u64 {
        super::not_linked()
    }
}

#[cfg(not(linked))]
pub fn not_linked() -> ! {
    crate::stop("this program was built without the archive: compare/run builds it with it")
}

/// What the archive returns, and the output.
pub fn run(case: &Case) -> (u64, Vec<u8>) {
    let mut output = case.lent.clone();
    let code = archive::run(&case.map, &case.keys, &mut output, case.budget);
    (code, output)
}

pub struct Programs {
    callplay: PathBuf,
    keyplay: PathBuf,
}

impl Programs {
    pub fn in_folder(folder: &Path) -> Self {
        let program = |name: &str| {
            let path = folder.join(name);
            if !path.is_file() {
                crate::stop(&format!("there is no program {}", path.display()));
            }
            path
        };
        Programs { callplay: program("callplay"), keyplay: program("keyplay") }
    }

    pub fn callplay(&self, input: &[u8]) -> Result<String, String> {
        printed(&self.callplay, input)
    }

    pub fn keyplay(&self, input: &[u8]) -> Result<String, String> {
        printed(&self.keyplay, input)
    }
}

/// What a program prints. It reads its input whole before it prints, so neither side waits for the other.
fn printed(program: &Path, input: &[u8]) -> Result<String, String> {
    let words = |e: std::io::Error| format!("{}: {e}", program.display());
    let mut child = Command::new(program).stdin(Stdio::piped()).stdout(Stdio::piped()).spawn().map_err(words)?;
    let mut to = child.stdin.take().expect("the child's input is a pipe");
    // a program that has read enough may close its end
    let _ = to.write_all(input);
    drop(to);
    let mut text = String::new();
    child.stdout.take().expect("the child's output is a pipe").read_to_string(&mut text).map_err(words)?;
    let status = child.wait().map_err(words)?;
    if status.success() {
        Ok(text)
    } else {
        Err(format!("{}: {status} after printing {text:?}", program.display()))
    }
}
