//! Instructions a call, by callgrind: the program runs itself under valgrind, which writes a file for each call of
//! `measured`, and reads the files.
use std::collections::BTreeMap;
use std::path::PathBuf;
use std::process::Command;

/// What callgrind is told to count.
#[no_mangle]
#[inline(never)]
pub fn measured(run: &mut dyn FnMut(u32)) {
    run(1);
}

pub struct Counts {
    folder: PathBuf,
    calls: usize,
}

impl Counts {
    /// Runs this program with the argument under callgrind.
    pub fn of(argument: &str) -> Counts {
        let program = std::env::current_exe().expect("this program");
        let folder = program.with_file_name("counts");
        let _ = std::fs::remove_dir_all(&folder);
        std::fs::create_dir(&folder).expect("a folder for the counts");
        let status = Command::new("valgrind")
            .args(["-q", "--tool=callgrind", "--zero-before=measured", "--dump-after=measured"])
            .args(["--compress-strings=no", "--compress-pos=no"])
            .arg(format!("--callgrind-out-file={}/call", folder.display()))
            .args([program.as_os_str(), argument.as_ref()])
            .status()
            .expect("valgrind");
        assert!(status.success(), "valgrind: {status}");
        Counts { folder, calls: 0 }
    }

    /// How many instructions each function of the next call has, the most first.
    pub fn next(&mut self) -> Vec<(String, u64)> {
        self.calls += 1;
        let file = self.folder.join(format!("call.{}", self.calls));
        let dump = std::fs::read_to_string(file).expect("a count");
        let mut functions = BTreeMap::<&str, u64>::new();
        let mut name = "";
        let mut lines = dump.lines();
        while let Some(line) = lines.next() {
            if let Some(function) = line.strip_prefix("fn=") {
                name = function;
            } else if line.starts_with("calls=") {
                // the next line is what the called function has
                lines.next();
            } else if line.starts_with(|c: char| c.is_ascii_digit()) {
                let cost = line.split(' ').nth(1).and_then(|n| n.parse::<u64>().ok());
                *functions.entry(name).or_default() += cost.expect("a cost");
            }
        }
        let mut functions: Vec<(String, u64)> = functions.into_iter().map(|(f, n)| (f.to_owned(), n)).collect();
        functions.sort_by_key(|(_, n)| std::cmp::Reverse(*n));
        functions
    }
}
