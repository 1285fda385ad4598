//! The program `replay` on made-up logs, its output held against document 02's text read once more over the crate. `logs -- [LOGS [SEED]]`.
#[cfg(crate_there)]
fn main() {
    run::main();
}

#[cfg(not(crate_there))]
fn main() {
    compare::say_missing();
}

#[cfg(crate_there)]
mod run {
    use compare::logs::{answers, kinds, long, made};
    use compare::rng::Rng;
    use std::io::Write;
    use std::process::{Command, Stdio};
    use std::{env, fs, path, thread};

    /// What the program writes.
    fn replay(program: &str, log: &[u8]) -> Vec<u8> {
        let mut child = Command::new(program)
            .stdin(Stdio::piped())
            .stdout(Stdio::piped())
            .spawn()
            .unwrap();
        let mut input = child.stdin.take().unwrap();
        let bytes = log.to_vec();
        let feeder = thread::spawn(move || input.write_all(&bytes).unwrap());
        let output = child.wait_with_output().unwrap().stdout;
        feeder.join().unwrap();
        output
    }

    fn same(program: &str, log: &[u8]) -> u64 {
        let (wanted, asked) = answers(log);
        let output = replay(program, log);
        if output != wanted {
            fs::write("differs.log", log).unwrap();
            println!("DIFFERENCE: differs.log");
            std::process::exit(1);
        }
        asked
    }

    /// The processor seconds of the children that have ended.
    fn spent() -> f64 {
        let stat = fs::read_to_string("/proc/self/stat").unwrap();
        let fields: Vec<&str> = stat
            .rsplit_once(')')
            .unwrap()
            .1
            .split_whitespace()
            .collect();
        let ticks = |k: usize| fields[k].parse::<f64>().unwrap();
        (ticks(13) + ticks(14)) / 100.0
    }

    pub fn main() {
        let program = env::var("NUKASOBE_REPLAY").unwrap_or("../crates/replay/out/replay".to_string());
        if !path::Path::new(&program).is_file() {
            return println!("{program} is not there (rt run in crates/replay): nothing was compared");
        }
        let mut arguments = env::args().skip(1).map(|a| a.parse::<u64>().unwrap());
        let logs = arguments.next().unwrap_or(2000);
        let mut rng = Rng::new(arguments.next().unwrap_or(1));
        let output = replay(
            &program,
            b"setup,128\r\nmalloc,24\r\nfree,16\r\nfree,16\r\n",
        );
        assert_eq!(
            output,
            b"line,refusal,offset\r\n1,0,0\r\n2,0,16\r\n3,0,0\r\n4,5,0\r\n"
        );
        let mut kinds = kinds();
        kinds.push(fs::read("../crates/replay/stdin").unwrap());
        for log in &kinds {
            same(&program, log);
        }
        println!(
            "document 02's example, and {} logs of one kind each: as read",
            kinds.len()
        );
        let mut asked = 0;
        for _ in 0..logs {
            let (length, rare) = (rng.below(60), 2 + rng.below(20));
            asked += same(&program, &made(&mut rng, length, rare));
        }
        println!("{logs} made-up logs: as read; {asked} answers are the crate's");
        let log = long(&mut rng, 100_000);
        println!(
            "100,000 records: as read; {} answers are the crate's",
            same(&program, &log)
        );
        let mut times: Vec<f64> = Vec::new();
        for _ in 0..21 {
            let before = spent();
            replay(&program, &log);
            times.push(spent() - before);
        }
        times.sort_by(f64::total_cmp);
        println!(
            "processor seconds: best {:.2}, middle of 21 {:.2}",
            times[0], times[10]
        );
    }
}
