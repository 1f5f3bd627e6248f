//! The two programs, and what is asked of both.

use crate::child::{self, Used};
use std::fs::{self, File};
use std::io;
use std::path::{Path, PathBuf};
use std::process::Command;

#[derive(Clone, Copy, Debug, PartialEq, Eq)]
pub enum Who {
    Plain,
    Meshrun,
}

pub struct Programs {
    meshrun: PathBuf,
    plain: PathBuf,
    /// Whether a mark of `meshrun` plans. Until it does, the plain program's marks are barriers
    /// too.
    pub plans: bool,
}

impl Programs {
    /// Finds the plain program beside the one that runs, and asks `meshrun` what its marks do.
    pub fn new(meshrun: PathBuf, scratch: &Path) -> io::Result<Programs> {
        fs::create_dir_all(scratch)?;
        let plain = std::env::current_exe()?.with_file_name("plain");
        let mut programs = Programs {
            meshrun,
            plain,
            plans: true,
        };
        let one_mark = scratch.join("one_mark.trace");
        fs::write(
            &one_mark,
            "mesh 1\nshards 1\npages 1\nring 1\ngens 1\nmark\n",
        )?;
        let report = programs
            .command(Who::Meshrun, &one_mark, false)
            .output()?
            .stdout;
        programs.plans = report.starts_with(b"mark 1 ");
        Ok(programs)
    }

    pub fn command(&self, who: Who, trace: &Path, replies: bool) -> Command {
        let program = match who {
            Who::Plain => &self.plain,
            Who::Meshrun => &self.meshrun,
        };
        let mut command = Command::new(program);
        command.args(["run", "--serial"]).arg(trace);
        if replies {
            command.arg("--replies");
        }
        if who == Who::Plain && !self.plans {
            command.arg("--barriers");
        }
        command
    }

    /// `meshrun` by threads, with the replies.
    pub fn by_threads(&self, trace: &Path) -> Command {
        let mut command = Command::new(&self.meshrun);
        command.args(["run", "--replies"]).arg(trace);
        command
    }

    pub fn run(&self, who: Who, trace: &Path, replies: bool, report: &Path) -> io::Result<Used> {
        child::run(
            &mut self.command(who, trace, replies),
            File::create(report)?,
        )
    }
}
