//! The crate against host/packmap.h: the names and words of the refusals, and the constants.

use packmap::Refusal;

const HEADER: &str = include_str!("../../host/packmap.h");

/// One refusal for each number, in order.
const ALL: [Refusal; 22] = [
    Refusal::VertexCount,
    Refusal::Length,
    Refusal::VertexNumber,
    Refusal::VertexTwice,
    Refusal::SideTwice,
    Refusal::SideAlone,
    Refusal::Ring { vertex: None },
    Refusal::Pieces,
    Refusal::Weights,
    Refusal::Coordinate,
    Refusal::Corner,
    Refusal::Sum,
    Refusal::Raise { raises: None },
    Refusal::Scale,
    Refusal::NotFinite,
    Refusal::Share { share: 2.5 },
    Refusal::Line { line: 2 },
    Refusal::Listing,
    Refusal::Text,
    Refusal::OuterNumber,
    Refusal::Stray { vertex: Some(7) },
    Refusal::Range,
];

/// The part of the header between two marks.
fn between(text: &'static str, from: &str, to: &str) -> &'static str {
    let (_, rest) = text.split_once(from).expect(from);
    rest.split_once(to).expect(to).0
}

/// `VERTEX_COUNT` as `VertexCount`.
fn camel(name: &str) -> String {
    let word = |word: &str| format!("{}{}", &word[..1], word[1..].to_lowercase());
    name.split('_').map(word).collect()
}

#[test]
fn numbers_and_names() {
    let list = between(HEADER, "enum packmap_refusal {", "};");
    let names = list.split("PACKMAP_REFUSED_").skip(1);
    let numbers: Vec<(String, u8)> = names
        .map(|entry| {
            let (name, number) = entry.split_once(" = ").unwrap();
            let number = number.trim().trim_end_matches(',');
            (camel(name), number.parse().unwrap())
        })
        .collect();
    let ours = ALL.map(|refusal| {
        let shown = format!("{refusal:?}");
        let name = shown.split(' ').next().unwrap();
        (name.to_owned(), refusal.number())
    });
    assert_eq!(numbers, ours);
    assert_eq!(ours.map(|(_, number)| number), second::NUMBERS);
}

#[test]
fn words() {
    let body = between(HEADER, "packmap_words(uint64_t number) {", "default:");
    let cases = body.split("case PACKMAP_REFUSED_").skip(1);
    let words: Vec<(String, &str)> = cases
        .map(|case| {
            let (name, rest) = case.split_once(':').unwrap();
            (camel(name), between(rest, "return \"", "\";"))
        })
        .collect();
    assert_eq!(words.len(), ALL.len());
    for ((name, words), refusal) in words.into_iter().zip(ALL) {
        assert!(format!("{refusal:?}").starts_with(&name));
        assert_eq!(refusal.words(), words);
        assert!(refusal.to_string().starts_with(words));
    }
}

#[test]
fn what_a_refusal_carries_is_shown() {
    let shown = |refusal: Refusal| refusal.to_string();
    let raise = "the next raise would make the weights too large";
    assert_eq!(shown(Refusal::Raise { raises: None }), raise);
    let after = Refusal::Raise { raises: Some(3) };
    assert_eq!(shown(after), format!("{raise} (raises: 3)"));
    let share = "a share is not between -2 and 2 (share: 2.5)";
    assert_eq!(shown(Refusal::Share { share: 2.5 }), share);
    let line = "a line of the text breaks the layout (line: 2)";
    assert_eq!(shown(Refusal::Line { line: 2 }), line);
    let error: Box<dyn std::error::Error + Send + Sync> = Refusal::Text.into();
    assert_eq!(error.to_string(), "the text is too long");
}

/// A number that the header defines.
fn defined(name: &str) -> usize {
    let rest = between(HEADER, &format!("#define {name} "), "\n");
    rest.trim().parse().expect(name)
}

#[test]
fn constants() {
    assert_eq!(packmap::LEAST_VERTICES, defined("PACKMAP_LEAST_VERTICES"));
    assert_eq!(packmap::MOST_VERTICES, defined("PACKMAP_MOST_VERTICES"));
    assert_eq!(packmap::MOST_JOB_VERTICES, defined("PACKMAP_JOB_VERTICES"));
    assert_eq!(packmap::JOB_BYTES, defined("PACKMAP_BYTES"));
    assert_eq!(packmap::LIMIT, defined("PACKMAP_LIMIT") as i64);
    assert_eq!(packmap::STACK, defined("PACKMAP_STACK"));
    assert_eq!(packmap::JOB_STACK, defined("PACKMAP_JOB_STACK"));
}
