//! A program's readings are watched; the first beyond the limits requests service:
//! `cargo run --example watched_readings`.

use hislip::{type_name, MessageType, Mode, Refusal, Server, Watch};

/// A whole message: type, control code, parameter, payload.
fn message(kind: MessageType, code: u8, parameter: u32, payload: &[u8]) -> Vec<u8> {
    let mut bytes = vec![b'H', b'S', kind.number(), code];
    bytes.extend(parameter.to_be_bytes());
    bytes.extend((payload.len() as u64).to_be_bytes());
    bytes.extend(payload);
    bytes
}

/// An IEEE 488.2 definite length block of 32-bit floats, as a meter sends after `FORMat REAL,32`.
fn block(readings: &[f32]) -> Vec<u8> {
    let count = size_of_val(readings).to_string();
    let mut bytes = format!("#{}{count}", count.len()).into_bytes();
    bytes.extend(readings.iter().flat_map(|reading| reading.to_be_bytes()));
    bytes
}

/// Session 1 on connections 0 and 1, which has asked for readings.
fn asks(server: &mut Server) -> Result<(), Refusal> {
    server.open(0)?;
    server.open(1)?;
    for (connection, bytes) in [
        (0, message(MessageType::Initialize, 0, 0x0100_4141, b"")),
        (1, message(MessageType::AsyncInitialize, 0, 1, b"")),
        (0, message(MessageType::DataEnd, 0, 0xffff_ff00, b"READ?")),
    ] {
        let outcome = server.deliver(connection, &bytes)?.outcome;
        println!("{}: {outcome}", type_name(bytes[2]));
    }
    Ok(())
}

pub fn main() -> Result<(), Refusal> {
    let mut server = Server::new(*b"AA", Mode::Synchronized);
    asks(&mut server)?;
    let volts = Watch::Outside {
        low: 4.9,
        high: 5.1,
    };
    server.watch(1, volts)?;

    // The answer comes in three parts; each is a block of its own.
    for readings in [&[5.01, 4.98][..], &[5.02, 5.13], &[f32::NAN, 4.7]] {
        println!("{readings:?}:");
        for frame in server.answer(1, &block(readings), false, b"")?.frames() {
            let (name, code) = (type_name(frame.kind), frame.code);
            println!(
                "    to connection {}: {name}, code {code}",
                frame.connection
            );
        }
    }
    match server.readings(1)? {
        Some(told) => println!(
            "from {} to {}, last {}",
            told.lowest, told.highest, told.last
        ),
        None => println!("no reading yet"),
    }
    let backwards = Watch::Outside {
        low: 5.1,
        high: 4.9,
    };
    if let Err(refusal) = server.watch(1, backwards) {
        println!("the limits the other way round: {refusal}");
    }
    Ok(())
}
