// Tests of many sessions in several threads. The words of the command line are a folder for passing files, a folder for sessions that
// differ, the programs, a count of sessions, and then, if given, the number of the first session and `--jobs` with a count of threads.

use crate::counts::Counts;
use std::path::{Path, PathBuf};
use std::process::{exit, Command as Process};
use std::sync::atomic::{AtomicU64, Ordering};
use std::sync::Mutex;

// After this many differences no further session is begun.
const MOST_DIFFERENCES: u64 = 20;
// Each time that this many sessions are done, standard error gets a line.
const SESSIONS_TO_A_LINE: u64 = 1000;

pub struct Words {
    work: PathBuf,
    kept: PathBuf,
    pub programs: Vec<PathBuf>,
    count: u64,
    first: u64,
    jobs: u64,
}

impl Words {
    // Returns the words of the command line with this number of programs, or `None` if they do not fit.
    fn read(programs: usize) -> Option<Words> {
        let mut words: Vec<String> = std::env::args().skip(1).collect();
        let mut jobs = 1;
        if let Some(place) = words.iter().position(|word| word == "--jobs") {
            jobs = words.get(place + 1)?.parse().ok()?;
            words.drain(place..place + 2);
        }
        let least = programs + 3;
        if words.len() < least || words.len() > least + 1 || jobs == 0 {
            return None;
        }
        let first = words.get(least).map_or(Some(1), |word| word.parse().ok())?;
        let count = words[least - 1].parse().ok()?;
        let mut paths = words.iter().map(PathBuf::from);
        let (work, kept) = (paths.next()?, paths.next()?);
        Some(Words { work, kept, programs: paths.take(programs).collect(), count, first, jobs })
    }

    // Keeps the folder of a session that differs.
    fn keep(&self, folder: &Path, number: u64) -> PathBuf {
        let target = self.kept.join(format!("session-{number}"));
        let _ = Process::new("cp").arg("-r").arg(folder).arg(&target).status();
        target
    }

    // Takes one session after another until all are done.
    fn work(&self, job: u64, next: &AtomicU64, all: &Mutex<Counts>, check: Check) {
        let folder = self.work.join(format!("job-{job}"));
        loop {
            let done = next.fetch_add(1, Ordering::Relaxed);
            if done >= self.count || all.lock().unwrap().differences >= MOST_DIFFERENCES {
                return;
            }
            let number = self.first + done;
            let mut counts = Counts::default();
            counts.sessions = 1;
            if let Err(what) = check(self, number, &folder, &mut counts) {
                println!("session {number}: {what}; its files are in {}", self.keep(&folder, number).display());
                counts.differences += 1;
            }
            if (done + 1).is_multiple_of(SESSIONS_TO_A_LINE) {
                eprintln!("{} sessions", done + 1);
            }
            all.lock().unwrap().add(counts);
        }
    }
}

// Tests the session of a number with files in a folder.
type Check = fn(&Words, u64, &Path, &mut Counts) -> Result<(), String>;

// Tests all sessions with a number of programs, prints what they came to, and ends the process: with the status 1 if one differs.
pub fn test_all(usage: &str, programs: usize, check: Check) -> ! {
    let Some(words) = Words::read(programs) else {
        println!("{usage}");
        exit(1);
    };
    let (next, all) = (AtomicU64::new(0), Mutex::new(Counts::default()));
    std::thread::scope(|scope| {
        for job in 0..words.jobs {
            let (words, next, all) = (&words, &next, &all);
            scope.spawn(move || words.work(job, next, all, check));
        }
    });
    let counts = all.into_inner().unwrap();
    print!("{counts}");
    if counts.lacks_a_kind() {
        println!("one of the counts of runs of changed code is 0");
    }
    exit((counts.differences > 0 || counts.lacks_a_kind()) as i32);
}
