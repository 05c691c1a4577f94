//! The feed of the proved program: the format both ways, the lines, the changes.

use plain::boundary::{Call, Writer, KINDS};
use plain::case::parse_case;
use plain::feed::{
    answer_line, fits, reopening, shared_source, Change, Changes, Feed, Hash, AREAS, PADDING,
    RECORD_BYTES,
};
use plain::make::{random_case, random_inputs, Random};
use plain::shapes::{boundary_shapes, header_shapes};
use plain::unfeed::calls_of;
use plain::Settings;

mod common;

/// What the writer is given for the paper's worked file.
fn worked_writer() -> Writer {
    Writer::from(&common::inputs(common::worked_settings(1), &[130]))
}

#[test]
fn what_is_written_reads_back() {
    let mut random = Random::new(3);
    let mut feed = Feed::default();
    let mut added = Vec::new();
    let drawn = std::iter::repeat_with(|| Call::from(&random_case(&mut random).call)).take(400);
    let calls: Vec<Call> = drawn.chain(boundary_shapes()).collect();
    for call in &calls {
        if feed.add(call) {
            assert!(fits(call));
            added.push(call.clone());
        }
    }
    let counts = feed.counts();
    assert_eq!(counts.left_out, calls.len() - added.len());
    for (name, counted) in KINDS.iter().zip(counts.calls) {
        let count = added.iter().filter(|call| call.name() == *name).count();
        assert_eq!(counted, count);
    }
    assert_eq!(counts.changed, 0);
    let (input, output) = feed.finish();
    assert_eq!(calls_of(&input), Ok(added.clone()));
    let lines: String = added.iter().map(answer_line).collect();
    assert_eq!(output, lines);
}

/// A record, by its words.
fn record(words: [u32; 4]) -> Vec<u8> {
    words.iter().flat_map(|word| word.to_be_bytes()).collect()
}

#[test]
fn the_format_is_as_documented() {
    let mut feed = Feed::default();
    let look = Call::Look {
        file: vec![0xAB, 0xCD],
        settings: 25,
    };
    let changes = Changes {
        flips: 0,
        cuts: 2,
        extensions: false,
    };
    feed.add_changed(&look, &changes, usize::MAX);
    let writer = Writer {
        settings: vec![7, -1],
        tables: vec![i32::MIN],
        samples: vec![-2],
        scratch: 32,
    };
    assert!(feed.add(&Call::Pack { writer, out: 5 }));
    let mut expected = record([1, 25, 0, 0]);
    expected.extend(record([5, 0, 11, 0]));
    expected.extend([0xAB, 0xCD, 0, 0, 0, 0, 0, 0, 0, 0, 0]);
    expected.extend(record([14, 0, 0xAB, 2]));
    expected.extend(record([14, 0, 0xAB, 0]));
    expected.extend(record([14, 0, 0xAB, 1]));
    expected.extend(record([1, 2, 2, 0]));
    expected.extend([0, 0, 0, 7, 0xFF, 0xFF, 0xFF, 0xFF]);
    expected.extend(record([2, 1, 1, 0]));
    expected.extend([0x80, 0, 0, 0]);
    expected.extend(record([3, 1, 1, 0]));
    expected.extend([0xFF, 0xFF, 0xFF, 0xFE]);
    expected.extend(record([4, 32, 0, 0]));
    expected.extend(record([11, 0, 0, 5]));
    expected.extend(record([0; 4]));
    assert_eq!(feed.finish().0, expected);
}

#[test]
fn the_shared_numbers_are_those_of_the_proved_program() {
    let path = concat!(
        env!("CARGO_MANIFEST_DIR"),
        "/../../crates/replay_areas/src/shared.rt"
    );
    let source = std::fs::read_to_string(path).expect("the source");
    assert_eq!(source, shared_source());
    for area in AREAS {
        assert!(source.contains(&format!("MOST_{}: usize = {};", area.name, area.most)));
    }
}

#[test]
fn what_is_no_feed_is_no_feed() {
    for words in [[6, 0, 0, 0], [10, 0, 0, 0], [15, 0, 0, 0], [14, 0, 0, 0]] {
        assert!(calls_of(&[record(words), record([0; 4])].concat()).is_err());
    }
    for words in [[1, 1, 1, 0], [5, 0, 10, 0]] {
        assert!(calls_of(&record(words)).is_err());
    }
    assert!(calls_of(&[]).is_err());
    assert!(calls_of(&[0; RECORD_BYTES + 1]).is_err());
    let mut input = record([5, 0, 9, 0]);
    input.extend([0; PADDING]);
    for words in [[14, 9, 0, 0], [14, 0, 256, 0], [14, 0, 0, 10]] {
        let changed = [input.clone(), record(words), record([0; 4])].concat();
        assert!(calls_of(&changed).is_err());
    }
    let whole = [input.clone(), record([14, 0, 0, 0]), record([0; 4])].concat();
    assert_eq!(calls_of(&whole).map(|calls| calls.len()), Ok(1));
    // The bytes behind a file are zero.
    input[RECORD_BYTES] = 1;
    assert!(calls_of(&[input, record([0; 4])].concat()).is_err());
}

#[test]
fn changes_are_those_that_were_asked_for() {
    let file = [0x12, 0x34, 0x56];
    let all = Changes {
        flips: 3,
        cuts: 3,
        extensions: true,
    };
    let changes = all.of(&file);
    assert_eq!(changes.len(), 24 + 3 + 18);
    let files: Vec<Vec<u8>> = changes.iter().map(|change| change.apply(&file)).collect();
    for (index, changed) in files[..24].iter().enumerate() {
        let mut flipped = file;
        flipped[index / 8] ^= 0x80 >> (index % 8);
        assert_eq!(changed, &flipped);
    }
    assert_eq!(files[24..27], [&file[..0], &file[..1], &file[..2]]);
    for (index, changed) in files[27..].iter().enumerate() {
        let mut longer = file.to_vec();
        longer.resize(3 + 1 + index / 2, 0);
        if index % 2 == 1 {
            *longer.last_mut().expect("a byte") = 1;
        }
        assert_eq!(changed, &longer);
    }
    let short = Changes {
        flips: 2,
        cuts: 2,
        extensions: false,
    };
    assert!(short.of(&file).is_empty());
    let of_nothing = all.of(&[]);
    assert_eq!(of_nothing.len(), 18);
    let zero = Change {
        place: 0,
        byte: 0,
        length: 1,
    };
    assert_eq!(of_nothing[0], zero);
}

#[test]
fn changed_files_read_back_and_stop_at_the_cap() {
    let inputs = random_inputs(&mut Random::new(5));
    let length = inputs.length().expect("legal inputs") as usize;
    let pack = Call::Pack {
        writer: Writer::from(&inputs),
        out: length + 3,
    };
    let open = reopening(&pack).expect("a file");
    assert_eq!(open.file().map(<[u8]>::len), Some(length));
    let changes = Changes {
        flips: length,
        cuts: length,
        extensions: true,
    };
    let mut feed = Feed::default();
    feed.add_changed(&open, &changes, usize::MAX);
    assert_eq!(feed.counts().changed, 9 * length + 18);
    let (input, output) = feed.finish();
    let calls = calls_of(&input).expect("a feed");
    assert_eq!(calls.len(), 1 + 9 * length + 18);
    let lines: String = calls.iter().map(answer_line).collect();
    assert_eq!(output, lines);
    // Five areas, the call itself, three changes and the end.
    let most = length + PADDING + 10 * RECORD_BYTES;
    let mut feed = Feed::default();
    feed.add_changed(&open, &changes, most);
    assert_eq!(feed.counts().changed, 3);
    assert_eq!(feed.counts().left_out, 9 * length + 15);
    assert_eq!(feed.finish().0.len(), most);
}

/// The polynomial by powers of its base, in wide numbers.
fn hash_of(words: &[u32]) -> u64 {
    let modulus = u128::from(Hash::MODULUS);
    let mut power = 1;
    let mut sum = 0;
    for &word in words.iter().rev() {
        sum += (u128::from(word) + 1) * power % modulus;
        power = power * u128::from(Hash::BASE) % modulus;
    }
    (sum % modulus) as u64
}

fn is_prime(number: u64) -> bool {
    (2..)
        .take_while(|divisor| divisor * divisor <= number)
        .all(|divisor| !number.is_multiple_of(divisor))
}

#[test]
fn the_hash_is_the_polynomial() {
    assert!(is_prime(Hash::MODULUS) && is_prime(Hash::BASE));
    let slots = [0, -1, i32::MIN, i32::MAX, 5, -5, 0, 0];
    let words: Vec<u32> = slots.iter().map(|&slot| slot as u32).collect();
    assert_eq!(Hash::default().slots(&slots).0, hash_of(&words));
    let bytes = [0, 255, 7];
    assert_eq!(Hash::default().bytes(&bytes).0, hash_of(&[0, 255, 7]));
    assert_ne!(hash_of(&[0]), hash_of(&[]));
    assert_ne!(hash_of(&[0, 0]), hash_of(&[0]));
}

#[test]
fn lines_say_what_the_call_gave() {
    let writer = worked_writer();
    let file = common::packed(&common::inputs(common::worked_settings(1), &[130]));
    let mut area: Vec<u32> = file.iter().map(|&byte| u32::from(byte)).collect();
    area.push(0xA5);
    let pack = |out| Call::Pack {
        writer: writer.clone(),
        out,
    };
    let hash = hash_of(&area);
    assert_eq!(answer_line(&pack(21)), format!("pack 0 20 {hash:x}\n"));
    let zeros = hash_of(&[0; 19]);
    assert_eq!(answer_line(&pack(19)), format!("pack 6 20 {zeros:x}\n"));
    let length = Call::Length {
        writer: writer.clone(),
    };
    assert_eq!(answer_line(&length), "length 0 20 0\n");
    let before = -123_456_789_i32 as u32;
    let mut slots = vec![0; 19];
    slots.push(130);
    slots.extend(writer.settings.iter().map(|&slot| slot as u32));
    slots.push(before);
    let open = |image, settings| Call::Open {
        file: file.clone(),
        scratch: 32,
        tables: 19,
        image,
        settings,
    };
    let hash = hash_of(&slots[..44]);
    assert_eq!(answer_line(&open(1, 24)), format!("open 0 1 {hash:x}\n"));
    let hash = hash_of(&slots);
    assert_eq!(answer_line(&open(1, 25)), format!("open 0 1 {hash:x}\n"));
    let untouched = hash_of(&[before; 43]);
    for call in [open(0, 24), open(1, 23)] {
        assert_eq!(answer_line(&call), format!("open 3 0 {untouched:x}\n"));
    }
    let look = |length: usize, settings| Call::Look {
        file: file[..length].to_vec(),
        settings,
    };
    let hash = hash_of(&slots[20..]);
    assert_eq!(answer_line(&look(20, 25)), format!("look 0 0 {hash:x}\n"));
    let untouched = hash_of(&[before; 24]);
    let line = answer_line(&look(18, 24));
    assert_eq!(line, format!("look 7 0 {untouched:x}\n"));
    assert_eq!(answer_line(&look(20, 0)), "look 3 0 0\n");
}

#[test]
fn calls_that_the_program_cannot_hold_are_left_out() {
    let fits_with = |change: fn(&mut Writer)| {
        let mut writer = worked_writer();
        change(&mut writer);
        fits(&Call::Length { writer })
    };
    assert!(fits_with(|_| {}));
    assert!(fits_with(|writer| writer.settings = vec![-1; 64]));
    assert!(!fits_with(|writer| writer.settings = vec![0; 65]));
    assert!(!fits_with(|writer| writer.scratch = 2_113));
    assert!(!fits_with(|writer| writer.tables = vec![0; 1_281]));
    assert!(!fits_with(|writer| writer.samples = vec![0; 786_433]));
    let mut feed = Feed::default();
    let file = vec![0; 16_385];
    assert!(!feed.add(&Call::Look { file, settings: 24 }));
    assert_eq!(feed.counts().left_out, 1);
    assert_eq!(feed.finish(), (vec![0; RECORD_BYTES], String::new()));
}

#[test]
fn boundary_shapes_have_every_length_and_odd_slot() {
    let calls = boundary_shapes();
    let lines: Vec<String> = calls.iter().map(answer_line).collect();
    let count = |start: &str| lines.iter().filter(|line| line.starts_with(start)).count();
    assert!(calls.iter().all(fits));
    // Lists of 0 to 23 slots, two wrong numbers of samples, sizes of 2 and of 256.
    assert_eq!(["pack 3 ", "length 3 "].map(count), [32, 32]);
    assert_eq!(["open 3 ", "look 3 "].map(count), [25, 24]);
    assert_eq!(["pack 5 ", "open 5 "].map(count), [2, 2]);
    assert_eq!(count("pack 6 "), 2);
    // A slot that is no setting here holds anything.
    for slot in [7, 18] {
        let mut writer = worked_writer();
        writer.settings[slot] = i32::MIN;
        assert!(calls.contains(&Call::Length {
            writer: writer.clone()
        }));
        assert_eq!(answer_line(&Call::Length { writer }), "length 0 20 0\n");
    }
    assert!(count("pack 1 ") > 100 && count("length 1 ") > 100);
    assert!(count("open 0 ") > 5 && count("look 0 ") > 5);
}

#[test]
fn header_shapes_have_every_table_and_end() {
    let headers = header_shapes(1);
    assert_eq!(headers, header_shapes(1));
    assert_ne!(headers, header_shapes(2));
    assert_eq!(headers.len(), 100);
    let answers: Vec<_> = headers.iter().map(|file| plain::look(file)).collect();
    let refused = |number| {
        let is_it = |answer: &&Result<Settings, plain::Refusal>| {
            answer.is_err_and(|refusal| refusal.number() == number)
        };
        answers.iter().filter(is_it).count()
    };
    // Four sizes lie beyond a house limit, and nothing else is refused.
    assert_eq!(refused(4), 16);
    let looked: Vec<Settings> = answers.iter().flatten().copied().collect();
    assert_eq!(looked.len(), 84);
    for custom in 0..2 {
        for table in 0..2 {
            let is_it = |settings: &&Settings| {
                (settings.custom_weights, settings.accumulator_table) == (custom, table)
            };
            assert_eq!(looked.iter().filter(is_it).count(), 21);
        }
    }
    assert!(looked.iter().any(|settings| settings.x_size == 65_536));
    assert!(looked.iter().any(|settings| settings.z_size == 4_096));
    let is_empty_table = |settings: &Settings| {
        settings.custom_weights == 1 && settings.reduced_mode == 1 && settings.prediction_bands == 0
    };
    assert!(looked.iter().any(is_empty_table));
}

/// Runs the program, and gives its status and what it wrote.
fn plain(words: &[&str]) -> (Option<i32>, String) {
    let run = std::process::Command::new(env!("CARGO_BIN_EXE_plain"))
        .args(words)
        .output()
        .expect("the program runs");
    let text = String::from_utf8(run.stdout).expect("text");
    (run.status.code(), text)
}

/// A case as `unfeed` prints it, which knows no note but the line.
fn noted(text: &str, line: usize) -> String {
    text.replacen("note legal\n", &format!("note line {line}\n"), 1)
}

#[test]
fn the_command_line_feeds() {
    let manifest = env!("CARGO_MANIFEST_DIR");
    let directory = env!("CARGO_TARGET_TMPDIR");
    let (input, output) = (format!("{directory}/fed"), format!("{directory}/answered"));
    let run = |options: &[&str]| plain(&[&["feed", &input, &output], options].concat());
    let case = format!("{manifest}/vectors/0000.case");
    let said = "1 pack, 0 length, 1 open, 0 look, 18 changed, 0 left out\n";
    let done = run(&["--reopen", "--extensions", &case]);
    assert_eq!(done, (Some(0), said.to_string()));
    let calls = calls_of(&std::fs::read(&input).expect("the input")).expect("a feed");
    let text = std::fs::read_to_string(&case).expect("a case");
    let recorded = parse_case(&text).expect("a case").0.call;
    assert_eq!(calls[0], Call::from(&recorded));
    assert_eq!(calls[0].to_case(), Some(recorded));
    let lines: String = calls.iter().map(answer_line).collect();
    let written = std::fs::read_to_string(&output).expect("the output");
    assert_eq!(written, lines);
    assert_eq!(plain(&["unfeed", &input, "1"]), (Some(0), noted(&text, 1)));
    assert_eq!(plain(&["unfeed", &input, "0"]).0, Some(2));
    assert_eq!(plain(&["unfeed", &input, "21"]).0, Some(2));
    // The file of a recorded open is changed as well.
    let said = "0 pack, 0 length, 1 open, 0 look, 18 changed, 0 left out\n";
    let opening = format!("{manifest}/vectors/0001.case");
    let done = run(&["--extensions", &opening]);
    assert_eq!(done, (Some(0), said.to_string()));
    let said = "0 pack, 0 length, 0 open, 9 look, 0 changed, 0 left out\n";
    let done = run(&["--calls", "look", "--random", "1", "9", &case]);
    assert_eq!(done, (Some(0), said.to_string()));
    // A list of 23 slots is no case, and told in words.
    let said = "180 pack, 180 length, 36 open, 36 look, 0 changed, 0 left out\n";
    assert_eq!(run(&["--boundary"]), (Some(0), said.to_string()));
    let (status, text) = plain(&["unfeed", &input, "93"]);
    assert!(status == Some(0) && text.starts_with("pack, output of 20, settings ["));
    assert!(text
        .lines()
        .last()
        .is_some_and(|line| line.starts_with("pack 3 0 ")));
    assert_eq!(plain(&["shared"]), (Some(0), shared_source()));
    assert_eq!(run(&["--calls", "close"]).0, Some(2));
    assert_eq!(run(&["--close"]).0, Some(2));
}
