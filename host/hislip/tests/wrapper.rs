//! The safe wrapper: typed answers, and nothing that is passed can do harm.

use hislip::{
    sys, Answer, Answered, BadList, Connection, Deadline, Event, Frame, Frames, Holder,
    MessageType, Mode, Outcome, Readings, Refusal, Server, Watch, OUTPUT,
};
use reference::compose::{block, message};

/// A server with session 1 on connections 0 and 1.
fn with_session() -> Server {
    let mut server = Server::new(*b"AA", Mode::Synchronized);
    server.open(0).expect("not open");
    let opened = server.deliver(0, &message(0, 0, 0x0100_0000, b"hislip0"));
    let session = hislip::SessionId::new(1);
    assert_eq!(opened.expect("open").outcome, Outcome::ActedOn { session });
    server.open(1).expect("not open");
    let joined = server.deliver(1, &message(17, 0, 1, b"")).expect("open");
    assert_eq!(joined.outcome, Outcome::ActedOn { session });
    assert_eq!(
        joined
            .frames
            .map(|frame| frame.parameter)
            .collect::<Vec<_>>(),
        [0x4141]
    );
    server
}

#[test]
fn refusals_have_number_and_cause() {
    let mut server = with_session();
    assert_eq!(server.clock(9).expect("forwards").count(), 0);
    let told: Vec<(u64, String)> = [
        server.open(64).unwrap_err(),
        server.open(0).unwrap_err(),
        server.clock(8).unwrap_err(),
        server.clock(u64::MAX).unwrap_err(),
        server.answer(1, b"", true, b"").unwrap_err(),
        server.answer(7, b"", true, b"").unwrap_err(),
    ]
    .map(|refusal| (refusal.number(), refusal.to_string()))
    .to_vec();
    let numbers: Vec<u64> = told.iter().map(|(number, _)| *number).collect();
    assert_eq!(numbers, [1, 2, 3, 4, 5, 8]);
    assert_eq!(told[2].1, "refusal 3: the clock is below the last reading");
    let error: Box<dyn std::error::Error> = Box::new(Refusal::NoSession);
    assert_eq!(
        error.to_string(),
        "refusal 8: no live session has that number"
    );
}

#[test]
fn a_question_and_its_answer() {
    let mut server = with_session();
    let asked = server.deliver(0, &message(7, 0, 0xffff_ff00, b"*IDN?"));
    assert_eq!(asked.expect("open").taken, 21);
    let too_long = server.answer(1, &[0; 1025], true, b"").unwrap_err();
    assert_eq!(too_long, Refusal::AnswerTooLong);
    let answered = server.answer(1, b"meter", true, b"").expect("asked");
    assert!(!answered.is_withheld());
    let frames: Vec<Frame> = answered.frames().collect();
    assert_eq!(frames.len(), 1);
    assert_eq!(frames[0].connection, Connection::new(0));
    assert_eq!(frames[0].message_type(), Some(MessageType::DataEnd));
    assert_eq!(
        (frames[0].parameter, frames[0].payload),
        (0xffff_ff00, &b"meter"[..])
    );
    assert_eq!(frames[0].message, message(7, 0, 0xffff_ff00, b"meter"));
}

/// Session 2 on connections 2 and 3.
fn second_session(server: &mut Server) {
    server.open(2).expect("not open");
    server.open(3).expect("not open");
    let opened = server.deliver(2, &message(0, 0, 0x0100_0000, b"hislip0"));
    assert_eq!(opened.expect("open").taken, 23);
    let joined = server.deliver(3, &message(17, 0, 2, b""));
    assert_eq!(joined.expect("open").taken, 16);
}

#[test]
fn a_host_may_sleep_until_the_deadline() {
    let mut server = with_session();
    second_session(&mut server);
    assert_eq!(server.clock(100).expect("forwards").count(), 0);
    let granted = server.deliver(1, &message(4, 1, 0, b"")).expect("open");
    assert_eq!(granted.frames.count(), 1);
    assert_eq!(server.deadline(), None);
    let waits = server.deliver(3, &message(4, 1, 40, b"")).expect("open");
    assert_eq!(waits.frames.count(), 0);
    let due = Deadline {
        waiting: 1,
        milliseconds: 140,
    };
    assert_eq!(server.deadline(), Some(due));
    assert_eq!(server.clock(139).expect("forwards").count(), 0);
    assert_eq!(server.deadline(), Some(due), "asking changes nothing");
    assert_eq!(server.clock(140).expect("forwards").count(), 1);
    assert_eq!(server.deadline(), None);
}

/// A holder: session, exclusive, shared, reading, number.
fn holder(session: u16, exclusive: bool, shared: bool, granted_at: u64, grants: u64) -> Holder {
    Holder {
        session: session.into(),
        exclusive,
        shared,
        granted_at,
        grants,
    }
}

/// Delivers a lock message on an asynchronous connection: the codes that are answered.
fn lock(server: &mut Server, connection: u32, code: u8, parameter: u32, string: &[u8]) -> Vec<u8> {
    let delivered = server.deliver(connection, &message(4, code, parameter, string));
    let frames = delivered.expect("open").frames;
    frames.map(|frame| frame.code).collect()
}

#[test]
fn the_holders_are_told() {
    const NONE_SENT: u32 = 0xffff_fefe;
    let mut server = with_session();
    second_session(&mut server);
    assert_eq!(server.holders(), []);
    assert_eq!(server.clock(100).expect("forwards").count(), 0);
    assert_eq!(lock(&mut server, 3, 1, 0, b"cal"), [1]);
    assert_eq!(lock(&mut server, 1, 1, 0, b"cal"), [1]);
    assert_eq!(server.clock(140).expect("forwards").count(), 0);
    assert_eq!(lock(&mut server, 1, 1, 0, b""), [1]);
    let both = [
        holder(1, true, true, 140, 2),
        holder(2, false, true, 100, 1),
    ];
    assert_eq!(server.holders(), both);
    assert_eq!(lock(&mut server, 1, 1, 0, b""), [3], "counts nothing");
    assert_eq!(lock(&mut server, 3, 1, 900, b""), [], "waits");
    assert_eq!(server.clock(170).expect("forwards").count(), 0);
    assert_eq!(server.holders(), both, "asking changes nothing");
    assert_eq!(lock(&mut server, 1, 0, NONE_SENT, b""), [1, 1]);
    let second = [
        holder(1, false, true, 140, 2),
        holder(2, true, true, 170, 2),
    ];
    assert_eq!(server.holders(), second, "the clock of the grant");
    assert_eq!(server.cut(2).expect("open").count(), 0);
    assert_eq!(server.holders(), second[..1]);
}

/// What the wrapper never lets happen.
#[test]
fn a_list_that_is_too_short_is_refused() {
    let mut words = [0; hislip::WORDS];
    let mut strings = [0; hislip::STRING_BYTES];
    let mut out = [0; OUTPUT];
    let (w, s) = (words.as_mut_ptr(), strings.as_mut_ptr());
    unsafe { sys::hislip_new(w, s, 0x4141, 0) };
    for (connection, bytes) in [
        (0, message(0, 0, 0x0100_0000, b"")),
        (1, message(17, 0, 1, b"")),
        (1, message(4, 1, 0, b"k")),
    ] {
        unsafe { sys::hislip_open(w, s, connection) };
        let (shown, len) = (bytes.as_ptr(), bytes.len());
        let out = out.as_mut_ptr();
        let told = unsafe { sys::hislip_deliver(w, s, connection, shown, len, out, OUTPUT) };
        assert_eq!(told.taken, len as u64);
    }
    let blank = sys::hislip_row {
        session: 7,
        exclusive: 7,
        shared: 7,
        granted_at: 7,
        grants: 7,
    };
    let mut rows = [blank; 2];
    let short = unsafe { sys::hislip_holders(w, s, rows.as_mut_ptr(), 0) };
    assert_eq!((short.refusal, short.rows), (9, 0));
    assert_eq!(rows, [blank; 2]);
    let told = unsafe { sys::hislip_holders(w, s, rows.as_mut_ptr(), 2) };
    assert_eq!((told.refusal, told.rows), (0, 1));
    assert_eq!((rows[0].session, rows[0].shared), (1, 1));
    assert_eq!(rows[1], blank, "further rows stay as they are");
    assert_eq!(Refusal::ListTooShort.number(), 9);
}

/// Types and codes of an answer's frames.
fn sends(server: &mut Server, readings: &[f32]) -> Vec<(u8, u8)> {
    let answered = server.answer(1, &block(readings), false, b"");
    let frames = answered.expect("asked").frames();
    frames.map(|frame| (frame.kind, frame.code)).collect()
}

#[test]
fn a_reading_beyond_the_watch_requests_service() {
    const SENT: (u8, u8) = (6, 0);
    const REQUESTED: (u8, u8) = (20, 0x51);
    let mut server = with_session();
    server.status(0x41);
    let asks = server.deliver(0, &message(12, 0, 0xffff_ff00, b""));
    assert_eq!(asks.expect("open").taken, 16);
    assert_eq!(sends(&mut server, &[f32::NAN, 9.0]), [SENT], "off at first");
    let above = Watch::Above { limit: 1.0 };
    server.watch(1, above).expect("a number");
    assert_eq!(sends(&mut server, &[1.0, 0.5]), [SENT]);
    assert_eq!(sends(&mut server, &[0.5, 1.5]), [SENT, REQUESTED]);
    assert_eq!(sends(&mut server, &[2.0]), [SENT], "the first trip alone");
    server.watch(1, above).expect("a number");
    assert_eq!(sends(&mut server, &[2.0]), [SENT, REQUESTED], "set again");
    let (low, high) = (-1.0, f32::INFINITY);
    server.watch(1, Watch::Outside { low, high }).expect("good");
    assert_eq!(sends(&mut server, &[f32::INFINITY, -1.0]), [SENT]);
    assert_eq!(sends(&mut server, &[f32::NAN]), [SENT, REQUESTED]);
    server.watch(1, Watch::Off).expect("live");
    assert_eq!(sends(&mut server, &[-2.0]), [SENT]);
}

#[test]
fn watches_are_refused_with_their_cause() {
    let mut server = with_session();
    let bad = [
        Watch::Above { limit: f32::NAN },
        Watch::Outside {
            low: 1.0,
            high: 0.5,
        },
        Watch::Outside {
            low: f32::NAN,
            high: 0.5,
        },
        Watch::Outside {
            low: 0.5,
            high: f32::NAN,
        },
    ];
    for watch in bad {
        assert_eq!(server.watch(1, watch), Err(Refusal::BadLimits));
        assert_eq!(server.watch(2, watch), Err(Refusal::NoSession));
    }
    assert_eq!(
        Refusal::BadLimits.to_string(),
        "refusal 10: a limit is not a number, or low is above high"
    );
    let (low, high) = (0.0, -0.0);
    let zeros = Watch::Outside { low, high };
    assert_eq!(server.watch(1, zeros), Ok(()), "the two zeros are equal");
}

#[test]
fn the_record_of_readings_is_told() {
    let mut server = with_session();
    assert_eq!(server.readings(1), Ok(None));
    assert_eq!(server.readings(2), Err(Refusal::NoSession));
    let asks = server.deliver(0, &message(12, 0, 0xffff_ff00, b""));
    assert_eq!(asks.expect("open").taken, 16);
    assert_eq!(sends(&mut server, &[f32::NAN]).len(), 1);
    assert_eq!(server.readings(1), Ok(None), "no number yet");
    assert_eq!(sends(&mut server, &[0.0, 2.0, -0.0, f32::NAN]).len(), 1);
    let told = server.readings(1).expect("live").expect("three numbers");
    let [last, lowest, highest] = [-0.0_f32, 0.0, 2.0];
    assert_eq!(
        told,
        Readings {
            last,
            lowest,
            highest
        }
    );
    let signs = [told.last, told.lowest].map(f32::is_sign_negative);
    assert_eq!(signs, [true, false], "of equal extremes the first");
    let no_block = server.answer(1, b"#14\x7f", true, b"").expect("asked");
    assert_eq!(no_block.frames().count(), 1);
    assert_eq!(server.readings(1), Ok(Some(told)));
    assert_eq!(server.cut(1).expect("open").count(), 0);
    assert_eq!(server.readings(1), Err(Refusal::NoSession));
}

/// What becomes of a DataEND with this payload: its type, or the code of the Error.
fn commanded(server: &mut Server, number: u32, payload: &[u8]) -> Result<(), u8> {
    let delivered = server.deliver(0, &message(7, 0, number, payload));
    let mut delivered = delivered.expect("open");
    match delivered.outcome {
        Outcome::ActedOn { .. } => Ok(()),
        _ => Err(delivered.frames.next().expect("an Error").code),
    }
}

#[test]
fn only_allowed_commands_act() {
    let mut server = with_session();
    let mut numbers = (0xffff_ff00_u32..).step_by(2);
    let mut tried = |server: &mut Server, payload: &[u8]| {
        commanded(server, numbers.next().expect("enough"), payload)
    };
    assert_eq!(tried(&mut server, b"anything"), Ok(()), "no list yet");
    let list = ["*IDN?", "MEASure[:VOLTage[:DC]]?", "SYSTem:ERRor[:NEXT]?"];
    server.patterns(&list).expect("patterns");
    for good in [
        "*idn?",
        "MEAS? 10,1",
        "measure:volt:dc?",
        "SYST:ERR:NEXT?\n",
    ] {
        assert_eq!(tried(&mut server, good.as_bytes()), Ok(()), "{good}");
    }
    for bad in [
        "",
        "*IDN",
        "MEASU?",
        "MEAS:DC?",
        ":MEAS?",
        "SYST:ERR",
        "MEAS?;*RST",
    ] {
        let told = tried(&mut server, bad.as_bytes());
        assert_eq!(told, Err(hislip::NOT_ALLOWED), "{bad}");
    }
    server.patterns::<&str>(&[]).expect("an empty list");
    assert_eq!(tried(&mut server, b"*IDN?"), Err(128), "allows nothing");
}

#[test]
fn bad_lists_are_told_with_a_caret() {
    let mut server = with_session();
    server.patterns(&["*RST"]).expect("a pattern");
    let mut told = |list: &[&str]| server.patterns(list).unwrap_err();
    let lines = |bad: &BadList| {
        bad.to_string()
            .lines()
            .map(String::from)
            .collect::<Vec<_>>()
    };
    let first = told(&["*IDN?", "A[:B?]"]);
    assert_eq!(
        lines(&first),
        [
            "refusal 11: command pattern 1 goes wrong at byte 4",
            "A[:B?]",
            "    ^"
        ]
    );
    let short = told(&["", "*"]);
    assert_eq!(
        lines(&short)[..2],
        ["refusal 11: command pattern 0 stops short", ""]
    );
    let long = "A".repeat(129);
    let too_long = told(&[&long]);
    assert_eq!(
        lines(&too_long)[0],
        "refusal 11: command pattern 0 is longer than 128 bytes"
    );
    assert_eq!(lines(&too_long)[2].len(), 129);
    let two_in_one = told(&["*IDN?\n*RST", "bad"]);
    let place = BadList::Pattern {
        number: 0,
        place: 5,
        pattern: b"*IDN?\n*RST".to_vec(),
    };
    assert_eq!(two_in_one, place);
    let many = told(&["bad"; 33]);
    assert_eq!(
        (many.clone(), many.refusal()),
        (BadList::TooMany, Refusal::TooManyPatterns)
    );
    assert_eq!(many.to_string(), "refusal 12: above 32 command patterns");
    let event = Event::Patterns { list: &[b"x"] };
    assert_eq!(server.apply(event).unwrap_err(), Refusal::BadPattern);
    assert_eq!(
        commanded(&mut server, 0xffff_ff00, b"*rst"),
        Ok(()),
        "the first list"
    );
}

#[test]
fn the_clients_size_is_told() {
    let mut server = with_session();
    assert_eq!(server.client_size(1), Ok(1024));
    for size in [0, 5, 1025, u64::MAX] {
        let announced = message(15, 0, 0, &size.to_be_bytes());
        assert_eq!(server.deliver(1, &announced).expect("open").taken, 24);
        assert_eq!(server.client_size(1), Ok(size));
    }
    for session in [0, 2, u16::MAX] {
        assert_eq!(server.client_size(session), Err(Refusal::NoSession));
    }
    server.open(7).expect("not open");
    let half_open = server.deliver(7, &message(0, 0, 0x0100_0000, b""));
    assert_eq!(half_open.expect("open").taken, 16);
    assert_eq!(server.client_size(2), Ok(1024));
    assert_eq!(server.cut(0).expect("open").count(), 0);
    assert_eq!(server.client_size(1), Err(Refusal::NoSession));
}

#[test]
fn several_frames_come_in_order() {
    let mut server = with_session();
    let closed = server.deliver(1, &[0; 16]).expect("open");
    assert_eq!(
        closed.outcome,
        Outcome::Closed {
            session: Some(1.into())
        }
    );
    assert_eq!(closed.taken, 0);
    let to: Vec<(u32, u8, u8)> = closed
        .frames
        .map(|f| (f.connection.number(), f.kind, f.code))
        .collect();
    assert_eq!(to, [(0, 2, 1), (1, 2, 1)]);
}

#[test]
fn a_connection_without_a_session_closes_without_a_number() {
    let mut server = Server::new(*b"ZZ", Mode::Synchronized);
    server.open(63).expect("not open");
    let closed = server.deliver(63, &[0; 16]).expect("open");
    assert_eq!(closed.outcome, Outcome::Closed { session: None });
}

#[test]
fn any_output_buffer_is_safe() {
    for length in [0, 1, OUTPUT - 1] {
        let mut server = Server::with_output(*b"AA", Mode::Synchronized, vec![0; length]);
        server.open(0).expect("not open");
        assert_eq!(server.deliver(0, b"").unwrap_err(), Refusal::ShortBuffer);
        assert_eq!(server.cut(0).unwrap_err(), Refusal::ShortBuffer);
        assert_eq!(server.clock(0).unwrap_err(), Refusal::ShortBuffer);
        assert_eq!(
            server.answer(0, b"", false, b"").unwrap_err(),
            Refusal::ShortBuffer
        );
    }
    let mut server = Server::with_output(*b"AA", Mode::Synchronized, vec![0; 5000]);
    server.open(0).expect("not open");
    let waits = server.deliver(0, b"HS").expect("open");
    assert_eq!((waits.outcome, waits.missing), (Outcome::MoreNeeded, 14));
}

#[test]
fn events_as_values() {
    let mut server = with_session();
    let mut frames_of = |event: Event| match server.apply(event).expect("accepted") {
        Answer::Done => 0,
        Answer::Frames(frames) => frames.count(),
        Answer::Answered(answered) => answered.frames().count(),
        Answer::Delivery(delivery) => delivery.frames.count(),
    };
    let bytes = &message(21, 0, 0, b"")[..];
    let connection = Connection::new(5);
    assert_eq!(frames_of(Event::Open { connection }), 0);
    assert_eq!(frames_of(Event::Status { status: 3 }), 0);
    let (session, watch) = (1.into(), Watch::Off);
    assert_eq!(frames_of(Event::Watch { session, watch }), 0);
    let deliver = Event::Deliver {
        connection: Connection::new(1),
        bytes,
    };
    assert_eq!(frames_of(deliver), 1);
    assert_eq!(frames_of(Event::Clock { milliseconds: 5 }), 0);
    assert_eq!(frames_of(Event::Cut { connection }), 0);
    let answer = Event::Answer {
        session: 1.into(),
        payload: b"",
        end: true,
        shown: b"",
    };
    assert_eq!(server.apply(answer).unwrap_err(), Refusal::NothingAsked);
}

#[test]
fn a_clone_is_a_second_server() {
    let mut first = with_session();
    let mut second = first.clone();
    assert_eq!(first.cut(0).expect("open").count(), 0);
    assert_eq!(first.cut(1).unwrap_err(), Refusal::Connection);
    assert_eq!(second.cut(1).expect("still open").count(), 0);
}

#[test]
fn frames_end_at_what_is_no_frame() {
    let whole = [&[9][..], &message(5, 1, 0, b"ab")].concat();
    let two = [&whole[..], &whole[..]].concat();
    assert_eq!(Frames::new(&two).count(), 2);
    for length in 1..whole.len() {
        assert_eq!(Frames::new(&whole[..length]).count(), 0);
    }
    let mut wrong = whole.clone();
    wrong[9..17].fill(0xff);
    assert_eq!(Frames::new(&wrong).count(), 0, "a length near 2^64");
}

#[test]
fn the_sizes_are_those_of_the_archive() {
    let (words, strings) = unsafe { (sys::hislip_words(), sys::hislip_string_bytes()) };
    let told = [hislip::WORDS as u64, hislip::STRING_BYTES as u64];
    assert_eq!([words, strings], told);
}

#[test]
fn every_connection_number_can_be_said() {
    let mut server = Server::new(*b"AA", Mode::Synchronized);
    for connection in Connection::all() {
        server.open(connection).expect("not open");
    }
    for number in [64, 255, 256, u32::MAX] {
        assert_eq!(server.open(number).unwrap_err(), Refusal::Connection);
    }
    assert_eq!(Connection::all().last(), Some(63.into()));
}

#[test]
fn the_mode_preferred_is_told() {
    for prefers in [Mode::Synchronized, Mode::Overlap] {
        let mut server = Server::new(*b"AA", prefers);
        server.open(0).expect("not open");
        let initialize = message(0, 0, 0x0100_0000, b"");
        let mut opened = server.deliver(0, &initialize).expect("open");
        let told = opened.frames.next().expect("InitializeResponse");
        assert_eq!(told.code, prefers.number());
        assert_eq!(Mode::of_code(told.code), prefers);
    }
    assert_eq!(Mode::Overlap.to_string(), "overlap");
}

#[test]
fn an_answer_is_sent_or_withheld() {
    let mut server = with_session();
    let question = |number| message(7, 0, number, b"?");
    let first = server.deliver(0, &question(0xffff_ff00)).expect("open");
    let Outcome::ActedOn { session } = first.outcome else {
        panic!("the question acts");
    };
    let second = question(0xffff_ff02);
    let part = server.answer(session, b"1", false, &second).expect("asked");
    assert!(matches!(part, Answered::Sent(_)), "only an end is withheld");
    let end = server.answer(session, b"2", true, &second).expect("asked");
    let Answered::Withheld(frames) = end else {
        panic!("the next question has come");
    };
    let told: Vec<_> = frames
        .map(|frame| (frame.message_type(), frame.parameter))
        .collect();
    let interrupted = [
        (Some(MessageType::AsyncInterrupted), 0xffff_ff02),
        (Some(MessageType::Interrupted), 0xffff_ff02),
    ];
    assert_eq!(told, interrupted);
}
