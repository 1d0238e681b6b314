//! A row's settings through the safe interface. What a text must tell is written out here, from document 02's words.
use splicebell::{Layout, Refusal, Settings, TextRefusal, Version};

/// Numbers that no two fields have alike.
const FIRST: Layout = Layout { n: 2, k: 1, p: 5, u: 8, t: 3, cookie: 0xab, edition: 1 };
const SECOND: Layout = Layout { edition: 2, ..FIRST };
const LARGEST: Layout =
    Layout { n: 16, k: 3, p: 64, u: 4096, t: 65536, cookie: u64::MAX, edition: 2 };
const SMALLEST: Layout = Layout { n: 1, k: 0, p: 1, u: 1, t: 1, cookie: 0, edition: 1 };

const FIRST_IN_ONE: &str = "01 02 01 05 0008 000003 00000000000000ab\n";
const FIRST_IN_TWO: &str = "02 02 01 05 0008 000003 00000000000000ab 01\n";
const SECOND_IN_TWO: &str = "02 02 01 05 0008 000003 00000000000000ab 02\n";
const LARGEST_IN_TWO: &str = "02 10 03 40 1000 010000 ffffffffffffffff 02\n";
const SMALLEST_IN_ONE: &str = "01 01 00 01 0001 000001 0000000000000000\n";

const RECORDS: [(Version, Layout, &str); 5] = [
    (Version::One, FIRST, FIRST_IN_ONE),
    (Version::Two, FIRST, FIRST_IN_TWO),
    (Version::Two, SECOND, SECOND_IN_TWO),
    (Version::Two, LARGEST, LARGEST_IN_TWO),
    (Version::One, SMALLEST, SMALLEST_IN_ONE),
];

/// What a reader is refused with, and the line that it blames.
fn refused(answer: Result<Layout, TextRefusal>) -> (Refusal, Option<u64>) {
    let why = answer.expect_err("no layout is shown");
    (why.refusal, why.line)
}

#[test]
fn a_record_is_a_line_behind_the_others() -> Result<(), Refusal> {
    let mut buffer = [b'.'; 300];
    let mut settings = Settings::new(&mut buffer);
    let mut text = String::new();
    for (version, layout, line) in RECORDS {
        settings.add(version, layout)?;
        text += line;
        assert_eq!(line.len(), version.line_length());
        assert_eq!((settings.text(), settings.used()), (text.as_bytes(), text.len()));
    }
    assert!(buffer[text.len()..].iter().all(|byte| *byte == b'.'));
    Ok(())
}

#[test]
fn the_newest_record_is_shown() -> Result<(), Refusal> {
    let mut text = String::new();
    for (_, layout, line) in RECORDS {
        text += line;
        assert_eq!(Layout::from_settings(line.as_bytes())?, layout);
        assert_eq!(Layout::from_settings(text.as_bytes())?, layout);
    }
    Ok(())
}

#[test]
fn an_old_reader_shows_the_same_layout_or_none() -> Result<(), Refusal> {
    let mut text = String::new();
    for (_, layout, line) in RECORDS {
        text += line;
        for told in [line, &text] {
            let old = Layout::from_settings_old(told.as_bytes());
            if layout.edition == 1 {
                assert_eq!(old?, Layout::from_settings(told.as_bytes())?);
            } else {
                assert_eq!(refused(old), (Refusal::UnknownEdition, None));
            }
        }
    }
    Ok(())
}

/// Only the first `used` bytes are the text, by either way to read it.
#[test]
fn bytes_behind_the_text_are_not_looked_at() -> Result<(), Refusal> {
    for behind in ["", "x", "\n", SECOND_IN_TWO, "03 anything"] {
        let mut buffer = [FIRST_IN_ONE, behind].concat().into_bytes();
        let settings = Settings::with_used(&mut buffer, FIRST_IN_ONE.len());
        assert_eq!(settings.text(), FIRST_IN_ONE.as_bytes());
        assert_eq!((settings.newest()?, settings.newest_old()?), (FIRST, FIRST));
        let none = Settings::with_used(&mut buffer, 0);
        for answer in [none.newest(), none.newest_old(), Layout::from_settings(none.text())] {
            assert_eq!(refused(answer), (Refusal::NoSuchRecord, None));
        }
    }
    Ok(())
}

#[test]
fn a_used_length_above_the_buffer_is_refused() {
    let bad = Layout { p: 65, ..FIRST };
    for used in [FIRST_IN_ONE.len() + 1, 1000, usize::MAX] {
        let mut buffer = FIRST_IN_ONE.as_bytes().to_vec();
        let mut settings = Settings::with_used(&mut buffer, used);
        assert_eq!(refused(settings.newest()), (Refusal::BadBufferLength, None));
        assert_eq!(refused(settings.newest_old()), (Refusal::BadBufferLength, None));
        assert_eq!(settings.add(Version::One, FIRST), Err(Refusal::BadBufferLength));
        assert_eq!(settings.add(Version::One, bad), Err(Refusal::BadLayout));
        assert_eq!((settings.used(), settings.text()), (used, &b""[..]));
        assert_eq!(buffer, FIRST_IN_ONE.as_bytes());
    }
}

/// The lines before are not looked at: what is no settings at all is added to as well.
#[test]
fn a_line_is_added_where_it_just_fits() {
    for (version, layout, line) in RECORDS {
        for used in [0, 1, 7] {
            let mut buffer = vec![b'.'; used + line.len()];
            let mut settings = Settings::with_used(&mut buffer, used);
            assert_eq!(settings.add(version, layout), Ok(()));
            assert_eq!(settings.used(), used + line.len());
            assert_eq!(settings.add(version, layout), Err(Refusal::CatalogueFull));
            assert_eq!(settings.used(), used + line.len());
            assert_eq!(buffer, [&b"......."[..used], line.as_bytes()].concat());

            let mut too_short = vec![b'.'; used + line.len() - 1];
            let mut settings = Settings::with_used(&mut too_short, used);
            assert_eq!(settings.add(version, layout), Err(Refusal::CatalogueFull));
            assert_eq!(settings.used(), used);
            assert!(too_short.iter().all(|byte| *byte == b'.'));
        }
    }
}

/// Each of the first layout's numbers outside its bounds, with the fields of a line that would tell it where there are
/// digits enough.
const OUTSIDE: [(Layout, Option<&str>); 14] = [
    (Layout { n: 0, ..FIRST }, Some("00 01 05 0008 000003")),
    (Layout { n: 17, p: 64, ..FIRST }, Some("11 01 40 0008 000003")),
    (Layout { n: 258, ..FIRST }, None),
    (Layout { k: 4, p: 64, ..FIRST }, Some("02 04 40 0008 000003")),
    (Layout { p: 3, ..FIRST }, Some("02 01 03 0008 000003")),
    (Layout { p: 65, ..FIRST }, Some("02 01 41 0008 000003")),
    (Layout { u: 0, ..FIRST }, Some("02 01 05 0000 000003")),
    (Layout { u: 4097, ..FIRST }, Some("02 01 05 1001 000003")),
    (Layout { u: 65544, ..FIRST }, None),
    (Layout { t: 0, ..FIRST }, Some("02 01 05 0008 000000")),
    (Layout { t: 65537, ..FIRST }, Some("02 01 05 0008 010001")),
    (Layout { t: 16777219, ..FIRST }, None),
    (Layout { edition: 0, ..FIRST }, None),
    (Layout { edition: 3, ..FIRST }, None),
];

#[test]
fn numbers_outside_the_bounds_are_neither_added_nor_shown() {
    for (layout, fields) in OUTSIDE {
        let mut buffer = [b'.'; 100];
        let mut settings = Settings::new(&mut buffer);
        for version in [Version::One, Version::Two] {
            assert_eq!(settings.add(version, layout), Err(Refusal::BadLayout), "{layout:?}");
        }
        assert_eq!((settings.used(), buffer), (0, [b'.'; 100]));
        if let Some(fields) = fields {
            malformed(&format!("01 {fields} 00000000000000ab\n"));
            malformed(&format!("02 {fields} 00000000000000ab 01\n"));
        }
    }
}

#[test]
fn edition_2_is_not_added_in_version_1() {
    let mut buffer = [b'.'; 100];
    let mut settings = Settings::new(&mut buffer);
    assert_eq!(settings.add(Version::One, SECOND), Err(Refusal::BadLayout));
    assert_eq!(Settings::new(&mut []).add(Version::One, SECOND), Err(Refusal::BadLayout));
    assert_eq!(buffer, [b'.'; 100]);
}

/// Alone, before, between and behind right lines, also where the newest has edition 2, both readers blame this line.
fn malformed(line: &str) {
    let blamed = |before: &str, behind: &str, number| {
        let text = [before, line, behind].concat();
        for read in [Layout::from_settings, Layout::from_settings_old] {
            assert_eq!(
                refused(read(text.as_bytes())),
                (Refusal::WrongLine, Some(number)),
                "{text:?}"
            );
        }
    };
    blamed("", "", 1);
    blamed(FIRST_IN_ONE, "", 2);
    if line.ends_with('\n') {
        blamed("", SECOND_IN_TWO, 1);
        blamed(&[FIRST_IN_ONE, SECOND_IN_TWO].concat(), FIRST_IN_TWO, 3);
    }
}

#[test]
fn a_line_of_another_form_is_malformed() {
    let of_another_form = [
        "\n",
        " \n",
        "01\n",
        "00 02 01 05 0008 000003 00000000000000ab\n",
        "03 02 01 05 0008 000003 00000000000000ab 01\n",
        "ff 02 01 05 0008 000003 00000000000000ab\n",
        "1 02 01 05 0008 000003 00000000000000ab\n",
        "01 02 01 05 0008 000003 00000000000000ab 01\n",
        "02 02 01 05 0008 000003 00000000000000ab\n",
        "02 02 01 05 0008 000003 00000000000000ab 00\n",
        "02 02 01 05 0008 000003 00000000000000ab 03\n",
        "01 02 01 05 0008 000003 00000000000000AB\n",
        "01 02 01 05 0008 000003 00000000000000ab\r\n",
        "01 02 01 05 0008 000003 00000000000000ab \n",
        " 01 02 01 05 0008 000003 00000000000000ab\n",
        "01  2 01 05 0008 000003 00000000000000ab\n",
        "01\t02 01 05 0008 000003 00000000000000ab\n",
        "01 02 01 05 0008 00003 00000000000000ab\n",
        "01 02 01 05 0008 000003 00000000000000ag\n",
        "01 02 01 05 0008 000003 00000000000000 b\n",
        "01 02 01 05 0008-000003 00000000000000ab\n",
        "02 02 01 05 0008 000003 00000000000000ab\x0001\n",
    ];
    for line in of_another_form {
        malformed(line);
    }
}

/// One that is cut by the used length has no newline.
#[test]
fn a_line_that_is_cut_short_is_malformed() {
    for (_, _, line) in RECORDS {
        for length in 1..line.len() {
            malformed(&line[..length]);
        }
    }
}

#[test]
fn the_first_of_several_malformed_lines_is_told() {
    let text = [FIRST_IN_ONE, "x\n", SECOND_IN_TWO, "\n", "y"].concat();
    assert_eq!(refused(Layout::from_settings(text.as_bytes())), (Refusal::WrongLine, Some(2)));
}

#[test]
fn a_refused_text_of_settings_says_why() {
    let why = |text: &str| Layout::from_settings_old(text.as_bytes()).unwrap_err().to_string();
    let malformed = why("x\n");
    assert!(malformed.starts_with("line 1: "));
    assert!(malformed.ends_with("a malformed line of settings"));
    assert!(why("").ends_with("no settings at all"));
    let unknown = "the newest settings have edition 2, which a reader of version 1 does not know";
    assert_eq!(why(SECOND_IN_TWO), unknown);
}
