//! Measures a gateway that runs: `cargo run --release -p gateway --example measure -- ADDR:PORT [PID]`.
//! Closed loop: one program asks `*IDN?` and waits for the answer, again and again. Deadlines: a second
//! program waits for a lock that it does not get, and the answer is compared with the time it named.
//! Idle: the processor time of PID while two programs are connected and silent. Each number has the
//! machine's load of the last minute beside it.

use std::time::{Duration, Instant};

use query::{Client, Settings, Trouble};

const LOOP: Duration = Duration::from_secs(3);
const LOCK_WAITS: u32 = 40;
const LOCK_MS: u32 = 50;
const IDLE: Duration = Duration::from_secs(5);
/// Linux counts processor time in hundredths of a second.
const TICKS: f64 = 100.0;

fn main() {
    let arguments = query::arguments().unwrap_or_default();
    let Some(to) = arguments.first() else {
        eprintln!("usage: measure ADDR:PORT [PID]");
        std::process::exit(2);
    };
    let pid = arguments.get(1).map(String::as_str);
    if let Err(trouble) = measure(to, pid) {
        eprintln!("measure: {trouble}");
        std::process::exit(1);
    }
}

fn measure(to: &str, pid: Option<&str>) -> Result<(), Trouble> {
    let settings = Settings {
        to: to.into(),
        sub_address: "hislip0".into(),
        patience: Duration::from_secs(5),
        overlap: false,
    };
    let (mut a, mut b) = (Client::open(&settings)?, Client::open(&settings)?);
    let rate = closed_loop(&mut a)?;
    println!("closed loop: {rate:.0} queries a second (load {})", load());
    a.lock(b"", 0)?;
    let late = deadlines(&mut b)?;
    let [first, middle, last] = [0, late.len() / 2, late.len() - 1].map(|at| late[at]);
    println!(
        "deadlines: {first:.2} to {last:.2} ms late, half under {middle:.2} ({LOCK_WAITS} waits, load {})",
        load()
    );
    if let Some(before) = pid.and_then(processor_seconds) {
        std::thread::sleep(IDLE);
        let used = pid.and_then(processor_seconds).unwrap_or(before) - before;
        let share = 100.0 * used / IDLE.as_secs_f64();
        println!("idle: {share:.2} % of a processor (load {})", load());
    }
    Ok(())
}

fn closed_loop(client: &mut Client) -> Result<f64, Trouble> {
    let (start, mut count) = (Instant::now(), 0);
    while start.elapsed() < LOOP {
        client.query(b"*IDN?")?;
        count += 1;
    }
    Ok(f64::from(count) / start.elapsed().as_secs_f64())
}

/// How late each answer came, in milliseconds, as the program sees it; sorted.
fn deadlines(client: &mut Client) -> Result<Vec<f64>, Trouble> {
    let mut late = Vec::new();
    for _ in 0..LOCK_WAITS {
        let start = Instant::now();
        match client.lock(b"", LOCK_MS) {
            Err(Trouble::NotGranted(_)) => {}
            other => other?,
        }
        late.push(start.elapsed().as_secs_f64() * 1000.0 - f64::from(LOCK_MS));
    }
    late.sort_by(f64::total_cmp);
    Ok(late)
}

/// Processes that ran or wanted to, on average over the last minute.
fn load() -> String {
    let loads = std::fs::read_to_string("/proc/loadavg").unwrap_or_default();
    loads.split(' ').next().unwrap_or("unknown").into()
}

fn processor_seconds(pid: &str) -> Option<f64> {
    let stat = std::fs::read_to_string(format!("/proc/{pid}/stat")).ok()?;
    let fields: Vec<&str> = stat.rsplit(')').next()?.split_whitespace().collect();
    let (user, system) = (fields.get(11)?, fields.get(12)?);
    let ticks = user.parse::<f64>().ok()? + system.parse::<f64>().ok()?;
    Some(ticks / TICKS)
}
