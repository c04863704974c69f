//! The host allows some commands and no others: `cargo run --example allowed_commands`.

use hislip::{MessageType, Mode, Outcome, Refusal, Server};

/// What a voltmeter may be asked.
const ALLOWED: [&str; 4] = [
    "*IDN?",
    "MEASure[:VOLTage[:DC]]?",
    "[SENSe:]VOLTage:RANGe",
    "SYSTem:ERRor[:NEXT]?",
];
/// The third, as patterns begin: with a word.
const MENDED: &str = "SENSe:VOLTage[:DC]:RANGe[:UPPer]";

/// A whole message: type, control code, parameter, payload.
fn message(kind: MessageType, code: u8, parameter: u32, payload: &[u8]) -> Vec<u8> {
    let mut bytes = vec![b'H', b'S', kind.number(), code];
    bytes.extend(parameter.to_be_bytes());
    bytes.extend((payload.len() as u64).to_be_bytes());
    bytes.extend(payload);
    bytes
}

/// Session 1 on connections 0 and 1.
fn joins(server: &mut Server) -> Result<(), Refusal> {
    server.open(0)?;
    server.open(1)?;
    let initialize = message(MessageType::Initialize, 0, 0x0100_4141, b"");
    let _ = server.deliver(0, &initialize)?;
    let join = message(MessageType::AsyncInitialize, 0, 1, b"");
    let _ = server.deliver(1, &join)?;
    Ok(())
}

pub fn main() -> Result<(), Refusal> {
    let mut server = Server::new(*b"AA", Mode::Synchronized);
    joins(&mut server)?;
    if let Err(bad) = server.patterns(&ALLOWED) {
        println!("{bad}");
    }
    let mut mended = ALLOWED;
    mended[2] = MENDED;
    server.patterns(&mended)?;

    let commands = [
        "*idn?",
        "meas:volt:dc? 10",
        "SENS:VOLT:RANG 1",
        "*RST",
        "MEASUR?",
    ];
    for (number, command) in (0xffff_ff00..).step_by(2).zip(commands) {
        let bytes = message(MessageType::DataEnd, 0, number, command.as_bytes());
        let delivery = server.deliver(0, &bytes)?;
        match delivery.outcome {
            Outcome::ActedOn { .. } => println!("{command}: acts"),
            outcome => {
                let codes: Vec<u8> = delivery.frames.map(|frame| frame.code).collect();
                println!("{command}: {outcome}, code {codes:?}");
            }
        }
    }
    Ok(())
}
