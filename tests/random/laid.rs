// A session in a folder of files, with the words of the command line that name them.

use crate::generator::HostFile;
use crate::model::Session;
use crate::rule::Paths;
use std::fs;
use std::path::{Path, PathBuf};
use std::process::{Command as Process, Output, Stdio};

// The option and the folder of the host files of each drive.
const FOLDERS: [(&str, &str); 4] = [("--files", "a"), ("--files-b", "b"), ("--files-c", "c"), ("--files-d", "d")];

pub struct Laid {
    pub folder: PathBuf,
    pub paths: Paths,
    words: Vec<String>,
    tail: String,
}

impl Laid {
    // Writes the files of a session, whose host files are these, into a new folder.
    pub fn new(session: &Session, files: &[HostFile], folder: &Path) -> std::io::Result<Laid> {
        let _ = fs::remove_dir_all(folder);
        fs::create_dir_all(folder)?;
        fs::write(folder.join("program.com"), &session.program)?;
        let mut paths = Paths { program: "program.com".to_string(), ..Paths::default() };
        let mut words = vec![paths.program.clone(), "--limit".to_string(), session.limit.to_string()];
        for (drive, (option, name)) in FOLDERS.iter().enumerate() {
            let files: Vec<_> = files.iter().filter(|file| file.key[0] as usize == drive).collect();
            if files.is_empty() {
                continue;
            }
            fs::create_dir(folder.join(name))?;
            for file in files {
                fs::write(folder.join(name).join(&file.name), &file.bytes)?;
                paths.names.insert(file.key, file.name.clone());
            }
            paths.folders[drive] = Some(name.to_string());
            words.extend([option.to_string(), name.to_string()]);
        }
        if !session.script.is_empty() {
            fs::write(folder.join("script"), &session.script)?;
            paths.script = Some("script".to_string());
            words.extend(["--console".to_string(), "script".to_string()]);
        }
        Ok(Laid { folder: folder.to_path_buf(), paths, words, tail: String::from_utf8_lossy(&session.tail).into_owned() })
    }

    // Runs a program with the words of the session and these.
    pub fn run(&self, program: &Path, options: &[&str]) -> Result<Output, String> {
        let mut process = Process::new(program);
        process.current_dir(&self.folder).stdin(Stdio::null()).args(&self.words).args(options);
        if !self.tail.is_empty() {
            process.arg("--").arg(&self.tail);
        }
        process.output().map_err(|fault| format!("the program is not started: {fault}"))
    }

    // Returns what a program prints with these options; its status must be 0, and standard error empty. The text stays in the folder
    // until the next one of this name.
    pub fn printed(&self, program: &Path, options: &[&str], out: &str) -> Result<String, String> {
        let output = self.run(program, options)?;
        fs::write(self.folder.join(out), &output.stdout).map_err(|fault| format!("{out} is not written: {fault}"))?;
        // a rule is printed with the line of the stop
        let wanted = if options.contains(&"--make") { "stop " } else { "" };
        let lines = String::from_utf8_lossy(&output.stderr).lines().count();
        if !output.status.success() || !output.stderr.starts_with(wanted.as_bytes()) || lines != !wanted.is_empty() as usize {
            return Err(format!("{out}: {}, {}", output.status, String::from_utf8_lossy(&output.stderr)));
        }
        String::from_utf8(output.stdout).map_err(|_| format!("{out} is no text"))
    }

    // Writes the words of the session into its folder.
    pub fn write_words(&self) -> std::io::Result<()> {
        fs::write(self.folder.join("words"), format!("{}\ntail: {}\n", self.words.join(" "), self.tail))
    }
}
