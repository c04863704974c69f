//! `gateway --help` says how it is used.

use std::fs::OpenOptions;
use std::io::Write;
use std::process::ExitCode;

use gateway::allow;
use gateway::instrument::raw_socket::RawSocket;
use gateway::instrument::simulated::Simulated;
use gateway::instrument::Instrument;
use gateway::options::{parse, Options, HELP};
use gateway::signals::Signals;
use gateway::{Gateway, Log};

const WRONG_COMMAND_LINE: u8 = 2;

fn main() -> ExitCode {
    let options = match query::arguments().and_then(parse) {
        Ok(options) => options,
        Err(wrong) => {
            let _ = writeln!(
                std::io::stderr(),
                "gateway: {wrong}; gateway --help says how"
            );
            return ExitCode::from(WRONG_COMMAND_LINE);
        }
    };
    if options.help {
        let _ = writeln!(std::io::stdout(), "{HELP}");
        return ExitCode::SUCCESS;
    }
    match serve(options) {
        Ok(()) => ExitCode::SUCCESS,
        Err(wrong) => {
            let _ = writeln!(std::io::stderr(), "gateway: {wrong}");
            ExitCode::FAILURE
        }
    }
}

fn log(options: &Options) -> Result<Log, String> {
    let mut log = Log::default();
    if !options.quiet {
        log.add(std::io::stdout());
    }
    if let Some(name) = &options.log {
        let file = OpenOptions::new().append(true).create(true).open(name);
        log.add(file.map_err(|error| format!("cannot write {name}: {error}"))?);
    }
    Ok(log)
}

fn serve(mut options: Options) -> Result<(), String> {
    if let Some(file) = &options.allow {
        options.settings.allow = Some(allow::of_file(file)?.patterns);
    }
    let signals = Signals::keep_back();
    let log = log(&options)?;
    let instrument: Box<dyn Instrument> = match options.instrument {
        Some(address) => Box::new(RawSocket::new(address)),
        None => Box::new(Simulated::new(options.measure)),
    };
    let listen = &options.settings.listen;
    let gateway = Gateway::new(&options.settings, instrument, log)
        .map_err(|error| format!("cannot listen on {listen}: {error}"))?;
    let stopping = signals.stop(gateway.stopper());
    stopping.map_err(|error| format!("cannot start: {error}"))?;
    gateway.run();
    Ok(())
}
