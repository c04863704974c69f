//! The command line.

use std::time::Duration;

use hislip::Mode;

use crate::gateway::Settings;
use crate::instrument::raw_socket::PORT;
use crate::watch;

/// What `--help` prints.
pub const HELP: &str = "\
usage: gateway [OPTION..]
  --listen ADDR:PORT        where programs connect (127.0.0.1:4880; [::1]:4880 for IPv6; port 0 for any)
  --vendor XX               two letters told to programs (EX)
  --overlap                 sessions start in overlap mode (synchronized)
  --instrument tcp://HOST[:PORT]
                            an instrument on a raw SCPI socket (port 5025) in place of the simulated meter
  --measure-ms N            how long the simulated meter measures (0)
  --instrument-timeout-ms N how long the instrument may take for one message (10000)
  --watch LIMIT | LOW,HIGH  sessions are told of the first reading above, or outside, in a block of floats
  --allow FILE              commands that are allowed, a SCPI pattern a line; others are answered Error 128
  --journal FILE            events are kept in FILE, from its start (docs/JOURNAL.md); when it is full, in FILE.1 and so on
  --log FILE                lines are also appended to FILE
  --quiet                   no lines on standard output
  --help
SIGTERM and Ctrl-C end it in order.";

/// The command line, read.
pub struct Options {
    /// The gateway's own part.
    pub settings: Settings,
    /// `host:port` of a raw SCPI socket; None is the simulated meter.
    pub instrument: Option<String>,
    /// How long the simulated meter measures.
    pub measure: Duration,
    /// A file of allowed commands.
    pub allow: Option<String>,
    /// A file that lines are appended to.
    pub log: Option<String>,
    /// No lines on standard output.
    pub quiet: bool,
    /// Only say how it is used.
    pub help: bool,
}

/// Reads the arguments; the text says what is wrong with them.
pub fn parse(arguments: impl IntoIterator<Item = String>) -> Result<Options, String> {
    let mut rest = arguments.into_iter();
    let mut options = Options {
        settings: Settings::default(),
        instrument: None,
        measure: Duration::ZERO,
        allow: None,
        log: None,
        quiet: false,
        help: false,
    };
    while let Some(word) = rest.next() {
        let mut next = || rest.next().ok_or(format!("{word} wants a value"));
        match &word[..] {
            "--help" => options.help = true,
            "--quiet" => options.quiet = true,
            "--overlap" => options.settings.prefers = Mode::Overlap,
            "--listen" => options.settings.listen = address(next()?)?,
            "--vendor" => options.settings.vendor = vendor(&next()?)?,
            "--instrument" => options.instrument = Some(instrument(&next()?)?),
            "--measure-ms" => options.measure = milliseconds(&word, &next()?)?,
            "--instrument-timeout-ms" => {
                options.settings.instrument_within = milliseconds(&word, &next()?)?;
            }
            "--watch" => options.settings.watch = watch::parse(&next()?)?,
            "--allow" => options.allow = Some(next()?),
            "--journal" => options.settings.journal = Some(next()?.into()),
            "--log" => options.log = Some(next()?),
            _ => return Err(format!("unknown option {word}")),
        }
    }
    match options.instrument.is_some() && !options.measure.is_zero() {
        true => Err("--measure-ms is for the simulated meter alone".into()),
        false => Ok(options),
    }
}

fn milliseconds(option: &str, text: &str) -> Result<Duration, String> {
    let number = text.parse::<u32>();
    let number = number.map_err(|_| format!("{option} wants milliseconds, not `{text}`"))?;
    Ok(Duration::from_millis(number.into()))
}

fn vendor(text: &str) -> Result<[u8; 2], String> {
    let letters = <[u8; 2]>::try_from(text.as_bytes()).ok();
    let letters = letters.filter(|letters| letters.iter().all(u8::is_ascii_alphabetic));
    letters.ok_or(format!("--vendor wants two letters, not `{text}`"))
}

/// Whether the text is a host, a colon and a port number.
fn has_port(text: &str) -> bool {
    let parts = text.rsplit_once(':');
    parts.is_some_and(|(host, port)| !host.is_empty() && port.parse::<u16>().is_ok())
}

fn address(text: String) -> Result<String, String> {
    match has_port(&text) {
        true => Ok(text),
        false => Err(format!("--listen wants ADDR:PORT, not `{text}`")),
    }
}

fn instrument(text: &str) -> Result<String, String> {
    match text.strip_prefix("tcp://") {
        Some(host) if has_port(host) => Ok(host.into()),
        Some(host) if !host.is_empty() && (!host.contains(':') || host.ends_with(']')) => {
            Ok(format!("{host}:{PORT}"))
        }
        _ => Err(format!("--instrument wants tcp://HOST:PORT, not `{text}`")),
    }
}

#[cfg(test)]
mod tests {
    use super::{instrument, parse};

    #[test]
    fn addresses_of_instruments() {
        for (text, address) in [
            ("tcp://meter", Some("meter:5025")),
            ("tcp://10.0.0.1:99", Some("10.0.0.1:99")),
            ("tcp://[::1]", Some("[::1]:5025")),
            ("tcp://[::1]:7", Some("[::1]:7")),
            ("tcp://", None),
            ("meter:5025", None),
            ("tcp://meter:x", None),
            ("tcp://:5025", None),
        ] {
            assert_eq!(instrument(text).ok().as_deref(), address, "{text}");
        }
    }

    #[test]
    fn wrong_ones() {
        for words in [
            "--listen 4880",
            "--listen [::1]",
            "--listen :4880",
            "--vendor X",
            "--vendor 11",
            "--measure-ms x",
            "--measure-ms",
            "4880",
            "--instrument tcp://a --measure-ms 5",
            "--watch",
            "--watch 2,1",
            "--allow",
        ] {
            assert!(
                parse(words.split(' ').map(String::from)).is_err(),
                "{words}"
            );
        }
    }
}
