//! A simulated voltmeter that answers as voltmeters do. A reading is an eighth of the range; its last
//! digits count the readings, so that one reading cannot be taken for another.

use std::time::Duration;

use super::scpi::{commands, spells};
use super::{block, ErrorQueue, Fault, Instrument, Patience, Request};

const IDENTITY: &str = "EXAMPLE,SIMULATED METER,0,1.0";
const RANGE: f64 = 10.0;
const LARGEST_RANGE: f64 = 1000.0;
const MOST_SAMPLES: usize = 100_000;
/// One step of the last digit in the smallest part of a range, and how many steps there are.
const STEP: f64 = 1e-9;
const STEPS: u64 = 1_000_000;

/// A meter that measures a voltage which creeps, and answers as meters do.
pub struct Simulated {
    measure: Duration,
    range: f64,
    samples: usize,
    /// Readings as a block of floats.
    real: bool,
    count: u64,
    readings: Vec<f64>,
    errors: ErrorQueue,
}

type Answer = Result<Option<Vec<u8>>, Fault>;

/// The answer of a query that is answered with text.
fn text(text: impl Into<String>) -> Answer {
    Ok(Some(text.into().into_bytes()))
}

/// A number as `+1.25000000E+00`.
fn scientific(number: f64) -> String {
    let text = format!("{number:+.8E}");
    match text.split_once('E') {
        Some((digits, exponent)) => {
            let exponent = exponent.parse::<i32>().unwrap_or(0);
            format!("{digits}E{exponent:+03}")
        }
        None => text,
    }
}

impl Simulated {
    /// Each measurement takes so long.
    pub fn new(measure: Duration) -> Simulated {
        Simulated {
            measure,
            range: RANGE,
            samples: 1,
            real: false,
            count: 0,
            readings: Vec::new(),
            errors: ErrorQueue::default(),
        }
    }

    fn reset(&mut self) {
        (self.range, self.samples, self.real) = (RANGE, 1, false);
        self.readings.clear();
    }

    fn measure(&mut self, patience: &Patience) -> Result<(), Fault> {
        self.readings.clear();
        patience.sleep(self.measure)?;
        for _ in 0..self.samples {
            let digits = (self.count % STEPS) as f64 * STEP;
            self.readings.push(self.range * (0.125 + digits));
            self.count += 1;
        }
        Ok(())
    }

    /// The last readings, as asked.
    fn fetch(&self) -> Answer {
        match (self.readings.is_empty(), self.real) {
            (true, _) => Err(Fault::Stale),
            (_, true) => Ok(Some(block::of_floats(&self.readings))),
            _ => {
                let readings = self.readings.iter().map(|reading| scientific(*reading));
                text(readings.collect::<Vec<_>>().join(","))
            }
        }
    }

    fn command(&mut self, command: &str, patience: &Patience) -> Answer {
        let end = command.find(|c: char| c.is_ascii_whitespace());
        let (name, argument) = command.split_at(end.unwrap_or(command.len()));
        let argument = argument.trim();
        let is = |patterns: &[&str]| patterns.iter().any(|pattern| spells(name, pattern));
        if name.starts_with('*') {
            self.common(&name.to_ascii_uppercase(), patience)
        } else if is(&["SYSTem:ERRor?", "SYSTem:ERRor:NEXT?"]) {
            text(self.errors.take_oldest())
        } else if is(&["MEASure?", "MEASure:VOLTage?", "MEASure:VOLTage:DC?"]) {
            (self.range, self.samples) = (range(argument)?.unwrap_or(RANGE), 1);
            self.measure(patience)?;
            self.fetch()
        } else if is(&["READ?"]) {
            self.measure(patience)?;
            self.fetch()
        } else if is(&["FETCh?"]) {
            self.fetch()
        } else if is(&["INITiate", "INITiate:IMMediate"]) {
            self.measure(patience).map(|()| None)
        } else {
            self.setting(name, argument)
        }
    }

    /// IEEE 488.2's own commands.
    fn common(&mut self, name: &str, patience: &Patience) -> Answer {
        match name {
            "*IDN?" => text(IDENTITY),
            "*OPC?" => text("1"),
            "*STB?" => text(self.status().to_string()),
            "*TST?" => text("0"),
            "*RST" => {
                self.reset();
                Ok(None)
            }
            "*CLS" => {
                self.errors.clear();
                Ok(None)
            }
            "*TRG" => self.measure(patience).map(|()| None),
            "*OPC" | "*WAI" => Ok(None),
            _ => Err(Fault::UndefinedHeader),
        }
    }

    fn setting(&mut self, name: &str, argument: &str) -> Answer {
        let is = |patterns: &[&str]| patterns.iter().any(|pattern| spells(name, pattern));
        if is(&[
            "VOLTage:RANGe?",
            "VOLTage:DC:RANGe?",
            "SENSe:VOLTage:DC:RANGe?",
        ]) {
            return text(scientific(self.range));
        } else if is(&[
            "VOLTage:RANGe",
            "VOLTage:DC:RANGe",
            "SENSe:VOLTage:DC:RANGe",
        ]) {
            self.range = range(argument)?.ok_or(Fault::MissingParameter)?;
        } else if is(&["SAMPle:COUNt?"]) {
            return text(self.samples.to_string());
        } else if is(&["SAMPle:COUNt"]) {
            let count = argument.parse().map_err(|_| Fault::DataType)?;
            let count = Some(count).filter(|count| (1..=MOST_SAMPLES).contains(count));
            self.samples = count.ok_or(Fault::OutOfRange)?;
        } else if is(&["FORMat?", "FORMat:DATA?"]) {
            return text(if self.real { "REAL,32" } else { "ASC,9" });
        } else if is(&["FORMat", "FORMat:DATA"]) {
            let (kind, width) = argument.split_once(',').unwrap_or((argument, ""));
            self.real = match (spells(kind, "REAL"), spells(kind, "ASCii"), width.trim()) {
                (true, _, "" | "32") => true,
                (_, true, _) => false,
                (true, ..) => return Err(Fault::OutOfRange),
                _ => return Err(Fault::DataType),
            };
        } else {
            return Err(Fault::UndefinedHeader);
        }
        Ok(None)
    }

    /// The commands of a message up to the first that fails: answers stand in the order of their
    /// queries, with none left out between them.
    fn message(&mut self, message: &[u8], patience: &Patience) -> Answer {
        let mut answers = Vec::new();
        for command in commands(message) {
            match self.command(&String::from_utf8_lossy(command), patience) {
                Ok(answer) => answers.extend(answer),
                Err(Fault::Cleared) => return Err(Fault::Cleared),
                Err(fault) => {
                    self.errors.push(fault);
                    if answers.is_empty() {
                        return Err(fault);
                    }
                    break;
                }
            }
        }
        Ok((!answers.is_empty()).then(|| answers.join(&b';')))
    }
}

/// A range in volts; None if none is given.
fn range(argument: &str) -> Result<Option<f64>, Fault> {
    let first = argument.split(',').next().unwrap_or("").trim();
    if first.is_empty() || spells(first, "DEFault") || spells(first, "AUTO") {
        return Ok(None);
    }
    let range = first.parse::<f64>().map_err(|_| Fault::DataType)?;
    match range > 0.0 && range <= LARGEST_RANGE {
        true => Ok(Some(range)),
        false => Err(Fault::OutOfRange),
    }
}

impl Instrument for Simulated {
    fn name(&self) -> String {
        "a simulated meter".into()
    }

    fn trigger_answers(&self) -> bool {
        true
    }

    fn perform(&mut self, request: &Request, patience: &Patience) -> Answer {
        match request {
            Request::Message(message) => self.message(message, patience),
            Request::Trigger => {
                let reading = self.measure(patience).and_then(|()| self.fetch());
                reading.inspect_err(|fault| {
                    if *fault != Fault::Cleared {
                        self.errors.push(*fault);
                    }
                })
            }
            Request::Dropped(fault) => {
                self.errors.push(*fault);
                Ok(None)
            }
        }
    }

    fn status(&self) -> u8 {
        self.errors.status()
    }
}

#[cfg(test)]
mod tests {
    use super::*;

    fn ask(simulated: &mut Simulated, text: &str) -> String {
        let patience = Patience::new(Duration::from_secs(1));
        let request = Request::Message(text.as_bytes().to_vec());
        match simulated.perform(&request, &patience) {
            Ok(Some(answer)) => String::from_utf8_lossy(&answer).into_owned(),
            Ok(None) => "-".into(),
            Err(fault) => fault.to_string(),
        }
    }

    #[test]
    fn numbers_as_meters_write_them() {
        for (number, text) in [
            (1.25, "+1.25000000E+00"),
            (-0.000125, "-1.25000000E-04"),
            (0.0, "+0.00000000E+00"),
            (9.9e37, "+9.90000000E+37"),
        ] {
            assert_eq!(scientific(number), text);
            assert_eq!(text.parse::<f64>(), Ok(number));
        }
    }

    #[test]
    fn readings_follow_the_range() {
        let mut simulated = Simulated::new(Duration::ZERO);
        assert_eq!(ask(&mut simulated, "MEAS:VOLT:DC?"), "+1.25000000E+00");
        assert_eq!(ask(&mut simulated, "fetc?"), "+1.25000000E+00");
        assert_eq!(ask(&mut simulated, "READ?"), "+1.25000001E+00");
        assert_eq!(
            ask(&mut simulated, "VOLT:RANG 100;:READ?"),
            "+1.25000002E+01"
        );
        assert_eq!(ask(&mut simulated, "volt:rang?"), "+1.00000000E+02");
        assert_eq!(ask(&mut simulated, "*RST;FETC?"), Fault::Stale.to_string());
    }

    #[test]
    fn a_message_ends_at_its_first_fault() {
        let mut simulated = Simulated::new(Duration::ZERO);
        assert_eq!(ask(&mut simulated, "*OPC?;BAD?;*TST?"), "1");
        assert!(ask(&mut simulated, "BAD?;*TST?").starts_with("-113"));
        assert_eq!(ask(&mut simulated, "*STB?"), "4");
    }

    #[test]
    fn faults_wait_in_the_queue() {
        let mut simulated = Simulated::new(Duration::ZERO);
        for (wrong, number) in [
            ("NONSENSE", "-113"),
            ("VOLT:RANG -1", "-222"),
            ("VOLT:RANG inf", "-222"),
            ("VOLT:RANG NaN", "-222"),
            ("VOLT:RANG x", "-104"),
            ("VOLT:RANG", "-109"),
            ("SAMP:COUN 0", "-222"),
            ("SAMP:COUN", "-104"),
            ("FORM REAL,64", "-222"),
        ] {
            assert!(ask(&mut simulated, wrong).starts_with(number), "{wrong}");
            assert_eq!(ask(&mut simulated, "*STB?"), "4");
            let error = ask(&mut simulated, "SYST:ERR?");
            assert!(error.starts_with(number), "{wrong}: {error}");
            assert_eq!(ask(&mut simulated, "SYSTem:ERRor:NEXT?"), "+0,\"No error\"");
            assert_eq!(ask(&mut simulated, "*STB?"), "0");
        }
        assert_eq!(ask(&mut simulated, "VOLT:RANG?"), "+1.00000000E+01");
    }

    #[test]
    fn a_block_of_floats() {
        let mut simulated = Simulated::new(Duration::ZERO);
        assert_eq!(
            ask(&mut simulated, "FORM REAL;:SAMP:COUN 2;:VOLT:RANG 8"),
            "-"
        );
        let patience = Patience::new(Duration::from_secs(1));
        let request = Request::Message(b"READ?".to_vec());
        let block = simulated.perform(&request, &patience);
        let one = 1.0f32.to_be_bytes();
        assert_eq!(block, Ok(Some([&b"#18"[..], &one, &one].concat())));
    }
}
