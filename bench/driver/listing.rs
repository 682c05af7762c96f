
// The listing, the copy and the mending of a large recording, of short records and of long ones; and the mending of a damaged one, and of bytes that
// are no recording.

mod listing {
    use super::*;
    use clock::*;
    use inputs::*;
    use std::fs::{self, File};
    use std::process::{self, Stdio};
    use std::time::Instant;

    const RECORDING: usize = 64_000_000;
    const LISTINGS: usize = 7;
    /// In each so many bytes of a damaged recording one is changed.
    const DAMAGED_EACH: usize = 4096;

    fn record(kind: u16, body: &[u8]) -> Vec<u8> {
        [u32s(&[6 + body.len() as u32]), u16s(&[kind]), body.to_vec()].concat()
    }

    /// What a day has most of.
    fn short_records() -> Vec<Vec<u8>> {
        vec![
            record(2, &container(1, StandardCommandCode::GetStorageInfo, &u32s(&[0x10001]))),
            record(1, &container(2, StandardCommandCode::GetStorageInfo, &storage_record())),
            record(1, &container(3, StandardResponseCode::Ok, &[])),
            record(3, b"next frame"),
        ]
    }

    fn long_records(body: usize) -> Vec<Vec<u8>> {
        vec![record(1, &container(2, StandardCommandCode::GetObject, &vec![0; body - 12]))]
    }

    /// These records again and again, and how many there are. Every file is written by one call: a file's speed depends on how it was written.
    fn write_recording(path: &str, few: &[Vec<u8>]) -> usize {
        let times = RECORDING / few.concat().len();
        fs::write(path, few.concat().repeat(times)).expect("the recording is written");
        times * few.len()
    }

    fn run_time(program: &str, input: &str) -> f64 {
        let began = Instant::now();
        let done = process::Command::new(program).stdin(File::open(input).expect("the recording")).stdout(Stdio::null()).stderr(Stdio::null()).status();
        assert!(done.expect("the program runs").success());
        nanoseconds(began)
    }

    /// Our programs by their paths.
    pub struct Programs<'a> {
        pub lists: &'a str,
        pub copies: &'a str,
        pub mends: &'a str,
    }

    /// Megabytes a second of each program in turn, medians.
    fn speeds(programs: &[&str], path: &str) -> Vec<f64> {
        let size = fs::metadata(path).expect("the recording").len() as f64;
        let mut times = vec![vec![]; programs.len()];
        for _ in 0..LISTINGS {
            for (program, took) in programs.iter().zip(&mut times) {
                took.push(run_time(program, path));
            }
        }
        times.into_iter().map(|took| size / median(took) * 1e3).collect()
    }

    fn measured(ours: &Programs, path: &str, few: &[Vec<u8>], what: &str) {
        let count = write_recording(path, few);
        let size = fs::metadata(path).expect("the recording").len() as f64;
        let speed = speeds(&[ours.lists, ours.copies, ours.mends, "cat"], path);
        println!();
        println!("A recording of {:.0} MB in {} {}, to /dev/null, medians of {} runs: our listing {:.0} MB/s, our copy {:.0} MB/s, our mending {:.0} MB/s, `cat` {:.0} MB/s.",
                 size / 1e6, count, what, LISTINGS, speed[0], speed[1], speed[2], speed[3]);
    }

    /// The recording that is there with one byte changed in each few thousand, at places that do not repeat soon.
    fn damaged(ours: &Programs, path: &str) {
        let mut data = fs::read(path).expect("the recording");
        for at in (0..data.len() - DAMAGED_EACH).step_by(DAMAGED_EACH) {
            data[at + at / DAMAGED_EACH * 1021 % DAMAGED_EACH] ^= 0x41;
        }
        fs::write(path, data).expect("the recording is written");
        let speed = speeds(&[ours.mends, "cat"], path);
        println!();
        println!("The same with one byte changed in each {}: our mending {:.0} MB/s, `cat` {:.0} MB/s.", DAMAGED_EACH, speed[0], speed[1]);
    }

    /// Bytes that are all dropped: none begins a record; or each of some begins one that claims 65,006 bytes, and holds none.
    fn dropped(ours: &Programs, path: &str) {
        let mut state = 1u64;
        let random: Vec<u8> = (0..RECORDING).map(|_| {
            state = state.wrapping_mul(6364136223846793005).wrapping_add(1442695040888963407);
            (state >> 56) as u8
        }).collect();
        let claims = [u32s(&[65_006]), u16s(&[1])].concat();
        for &(what, ref bytes) in &[("random bytes", random), ("headers that claim 65,006 bytes", claims.repeat(RECORDING / claims.len()))] {
            fs::write(path, bytes).expect("the bytes are written");
            let speed = speeds(&[ours.mends, "cat"], path);
            println!();
            println!("{:.0} MB of {}, all dropped: our mending {:.0} MB/s, `cat` {:.0} MB/s.", bytes.len() as f64 / 1e6, what, speed[0], speed[1]);
        }
    }

    pub fn listing(ours: &Programs, path: &str) {
        measured(ours, path, &short_records(), "short records");
        damaged(ours, path);
        measured(ours, path, &long_records(8192), "records with bodies of 8,192 bytes");
        measured(ours, path, &long_records(65_000), "records with bodies of 65,000 bytes");
        dropped(ours, path);
    }
}
