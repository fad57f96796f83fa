//! "The bench log": records, text, the turnings and a run.

use reference::bench_log::*;
use reference::frame::Frame;
use reference::generate::Random;

const EXAMPLE: [u8; 17] = [1, 1, 0x18, 0xFE, 0xF1, 0x21, 0, 0, 0, 0, 0, 0, 0, 0, 0, 2, 2];

#[test]
fn the_example() {
    assert_eq!(run(&EXAMPLE), "F 234 -\nT 18FEF121 0\n");
}

#[test]
fn the_text_of_the_example() {
    let frame = Frame { id: 0x18FE_F121, bytes: vec![1, 2] };
    assert_eq!(line_of(1, &frame), "(0000000000.000000) can1 18FEF121#0102\n");
    assert_eq!(frame_of(b"(1794789563.773934) can1 18FEF121#0102\n"), Ok((1, frame)));
}

#[test]
fn lines_that_no_frame_is_written_as() {
    for line in [
        "",
        "\n",
        "(0000000000.000000) can1 18FEF121#0102",
        "(0000000000.000000) can1 18FEF121#0102\r\n",
        "(0000000000.000000) can0 18FEF121#0102\n",
        "(0000000000.000000) can5 18FEF121#0102\n",
        "(0000000000.000000) can1 18fef121#0102\n",
        "(0000000000.000000) can1 18FEF121#010\n",
        "(0000000000.000000) can1 18FEF121#010203040506070809\n",
        "(0000000000.000000) can1 20000000#\n",
        "(0000000000.000000) can1 8FEF121#\n",
        "(000000000.000000) can1 18FEF121#\n",
        "(0000000000.00000a) can1 18FEF121#\n",
        "(0000000000,000000) can1 18FEF121#\n",
        "(0000000000.000000) can1 18FEF121#R\n",
        "(0000000000.000000)  can1 18FEF121#\n",
        " (0000000000.000000) can1 18FEF121#\n",
    ] {
        assert_eq!(frame_of(line.as_bytes()), Err(NO_FRAME), "{line:?}");
    }
}

#[test]
fn frames_written_and_read_again_are_the_same() {
    let mut random = Random::new(1);
    for _ in 0..10_000 {
        let bytes = random.number().to_le_bytes()[..random.below(9) as usize].to_vec();
        let frame = Frame { id: random.below(1 << 29), bytes };
        let port = 1 + random.below(4) as u8;
        assert_eq!(frame_of(line_of(port, &frame).as_bytes()), Ok((port, frame.clone())));
        let record = Record::of_frame(port, &frame);
        assert_eq!(Record::first(&record.bytes()), Ok((record.clone(), 15)));
        assert_eq!(to_text(&record), Ok(line_of(port, &frame)));
    }
}

#[test]
fn to_text_the_order_of_the_numbers() {
    let frame = |port, id, length| to_text(&Record::Frame { port, id, length, data: [0; 8] });
    assert_eq!(frame(5, 1 << 29, 9), Err(1));
    assert_eq!(frame(4, 1 << 29, 9), Err(3));
    assert_eq!(frame(4, (1 << 29) - 1, 9), Err(4));
    assert!(frame(4, (1 << 29) - 1, 8).is_ok());
    assert_eq!(to_text(&Record::Take { port: 1 }), Err(UNKNOWN_KIND));
}

#[test]
fn a_run_with_every_kind_of_line() {
    let mut log = Vec::new();
    for (port, id, length) in
        [(5, 0, 0), (1, 0x2000_0000, 9), (1, 0x18FE_F121, 9), (1, 0x18FE_F1FF, 0), (1, 0x18FE_F121, 2)]
    {
        log.extend(Record::Frame { port, id, length, data: [1, 2, 3, 4, 5, 6, 7, 8] }.bytes());
    }
    for port in [2, 2, 0] {
        log.extend(Record::Take { port }.bytes());
    }
    let lines = "R 1\nR 3\nR 4\nR 5\nF 234 -\nT 18FEF121 2 0102\nT -\nR 1\n";
    assert_eq!(run(&log), lines);
    assert_eq!(run(&[&log[..], &[3, 1, 1]].concat()), format!("{lines}R 24\n"));
    assert_eq!(run(&[&log[..], &[1, 9]].concat()), format!("{lines}R 25\n"));
}

#[test]
fn lost_ports_are_named() {
    let frame = Record::Frame { port: 3, id: 0x18FE_F121, length: 0, data: [0; 8] }.bytes();
    let mut log = frame.repeat(32);
    log.extend(Record::Take { port: 2 }.bytes());
    log.extend(&frame);
    let printed = run(&log);
    assert_eq!(printed.lines().next(), Some("F 124 -"));
    assert_eq!(printed.lines().last(), Some("F 2 14"));
}

#[test]
fn whole_inputs_are_turned() {
    let text = b"(0000000000.000000) can1 18FEF121#0102\nno frame\n(0000000001.000000) can2 18FEF121#\n(0000000000.000000) can1 18FEF121#";
    let turned = from_candump(text);
    assert_eq!(turned.refused, vec![(2, NO_FRAME), (4, NO_FRAME)]);
    assert_eq!(turned.output.len(), 30);
    let log = [&turned.output[..15], &[2, 1], &turned.output[15..], &[2]].concat();
    let back = to_candump(&log);
    assert_eq!(back.refused, vec![(2, UNKNOWN_KIND), (4, UNKNOWN_KIND)]);
    assert_eq!(back.output, b"(0000000000.000000) can1 18FEF121#0102\n(0000000000.000000) can2 18FEF121#\n");
    assert_eq!(to_candump(&[1, 1]).refused, vec![(1, CUT_SHORT)]);
    assert_eq!(to_candump(&[0, 1]).refused, vec![(1, UNKNOWN_KIND)]);
}

#[test]
fn lines_of_a_real_bus() {
    let map = [("can0", 1), ("vcan1", 4)];
    let text = "(1794789563.773934) can0 18FEF121#0102 R\n(1794789563.773934) vcan1 18fef121#0aff\r\n\
        (1794789563.773934) can7 18FEF121#0102\n(1794789563.773934) can0 123#0102\n(1794789563.773934) can0 18FEF121#R\n\
        (1794789563.773934) can0 18FEF121##1112233\n(1794789563.773934) can0 20000004#0000000000000000\nno line\n";
    let mapped = from_candump_map(text.as_bytes(), &map, None);
    assert_eq!(mapped.passed_over, [1, 1, 1, 1, 1, 1]);
    let first = Record::of_frame(1, &Frame { id: 0x18FE_F121, bytes: vec![1, 2] }).bytes();
    let second = Record::of_frame(4, &Frame { id: 0x18FE_F121, bytes: vec![0x0A, 0xFF] }).bytes();
    assert_eq!(mapped.output, [first, second].concat());
}

/// `candump -l` fills a short name up with blanks before it; a last line may lack its line feed.
#[test]
fn names_of_different_lengths_and_a_last_line_without_its_end() {
    let map = [("can0", 1), ("vcan10", 2)];
    let text = b"(1763380800.000000)   can0 18FEF121#0102\n(1763380800.001000) vcan10 18FEF122#";
    let mapped = from_candump_map(text, &map, None);
    assert_eq!((mapped.turned, mapped.passed_over), (2, [0; 6]));
    assert_eq!(from_candump_map(b"", &map, None), Mapped::default());
    assert_eq!(from_candump_map(b"no\n", &map, None).turned, 0);
}

/// What `candump -l can0 vcan10` of can-utils 2020.11 wrote on a real kernel: 34 frames, one of 11 bits, a remote one.
#[test]
fn a_log_of_can_utils() {
    let text = include_bytes!("../logs/can0_vcan10.log");
    let mapped = from_candump_map(text, &[("can0", 1), ("vcan10", 2)], Some(250_000));
    assert_eq!((mapped.turned, mapped.passed_over), (34, [0, 1, 1, 0, 0, 0]));
    // The frames are seconds apart, so each has left before the next comes, at three ports.
    assert_eq!(mapped.output.len(), 34 * (15 + 3 * 2));
    assert!(!run(&mapped.output).contains("T -"));
}

/// At 250,000 bits a second a frame takes 524 us: the second waits for the first, and the bus of arrival sends nothing while the frame is on it.
#[test]
fn takes_stand_where_buses_would_send() {
    let text =
        b"(1763380800.000000) can0 18FEF121#\n(1763380800.000100) can0 18FEF122#\n(1763380800.000500) can1 18FEF123#\n\
        (1763380800.001100) can0 18FEF124#\n";
    let log = from_candump_map(text, &[("can0", 1), ("can1", 2)], Some(250_000)).output;
    let mut kinds = String::new();
    let mut rest = &log[..];
    while !rest.is_empty() {
        let (record, size) = Record::first(rest).unwrap();
        kinds += &match record {
            Record::Frame { id, .. } => format!("F{} ", id % 256),
            Record::Take { port } => format!("T{port} "),
        };
        rest = &rest[size..];
    }
    assert_eq!(kinds, "F33 T2 T3 T4 F34 F35 T1 T2 T3 T3 T4 T4 F36 T2 T3 T4 ");
}

#[test]
fn a_map_of_the_strict_names_reads_what_the_strict_reader_reads() {
    let text = generate_text(3, 2000);
    let map = [("can1", 1), ("can2", 2), ("can3", 3), ("can4", 4)];
    let strict: Vec<u8> =
        text.split_inclusive(|b| *b == b'\n').filter(|line| frame_of(line).is_ok()).flatten().copied().collect();
    assert!(strict.len() > 20_000);
    assert_eq!(from_candump_map(&strict, &map, None).output, from_candump(&strict).output);
    assert_eq!(from_candump_map(&strict, &map, None).passed_over, [0; 6]);
}
