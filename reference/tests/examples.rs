//! The worked examples of the rules, and the errors that look right.

use reference::bound::{bound, bound_choice, tried};
use reference::engines::{r, search, Engine, Found, Work, ENGINES};
use reference::first::{first, First};
use reference::letters::{hits, meets, single, MARK};
use reference::products::{from_products, product, products_meet, to_products};
use reference::reasons::{reasons, shared};
use reference::refusals::{Refusal, MAX_N};
use reference::report::{printed, report};
use reference::sheet::{read, write, Room};

/// The letters of a text's line over an alphabet.
fn letters(alphabet: &str, line: &str) -> Vec<u32> {
    let sheet = |n: usize| format!("{}\n{alphabet}\n1\na\n{n}\n{line}\n", alphabet.len());
    let read = |n| read(sheet(n).as_bytes(), Room::AMPLE);
    (0..=line.len()).find_map(|n| read(n).ok()).unwrap_or_else(|| panic!("{line} is no letter line")).text
}

fn aen(line: &str) -> Vec<u32> {
    letters("aen", line)
}

fn abcd(line: &str) -> Vec<u32> {
    letters("abcd", line)
}

fn found(engine: Engine, pattern: &str, text: &str) -> Found {
    search(engine, 3, &aen(pattern), &aen(text)).unwrap()
}

fn work(scan: u64, shift: u64, words: u64) -> Work {
    Work { scan, shift, words }
}

const WORKED: &str = "3\naen\n4\nanna\n12\nannann[ae]nann[an]\n";

#[test]
fn the_worked_sheet() {
    let expected =
        "hits 3\n0\n3\n8\nbrute 20 0 0\nkmp 13 4 0\nbm 14 3 0\nsunday 15 0 0\nshiftand 0 0 12\nhybrid 1 0 12\n";
    assert_eq!(String::from_utf8(report(WORKED.as_bytes()).unwrap()).unwrap(), expected);
    let worked = read(WORKED.as_bytes(), Room::AMPLE).unwrap();
    assert_eq!(worked.pattern, [1, 4, 4, 1]);
    assert_eq!(worked.text, [1, 4, 4, 1, 4, 4, 3, 4, 1, 4, 4, 5]);
    assert_eq!(write(3, b"aen", &worked.pattern, &worked.text, 8192).unwrap(), WORKED.as_bytes());
}

#[test]
fn aan_keeps_the_start_that_borders_lose() {
    assert_eq!(found(Engine::Brute, "aan", "aa[an]n"), Found { hits: vec![0, 1], work: work(6, 0, 0) });
    assert_eq!(found(Engine::Kmp, "aan", "aa[an]n"), Found { hits: vec![0, 1], work: work(4, 2, 0) });
}

#[test]
fn an_after_three_others() {
    assert_eq!(found(Engine::Hybrid, "an", "eeean"), Found { hits: vec![3], work: work(2, 0, 2) });
    for engine in ENGINES {
        assert_eq!(found(engine, "an", "eeean").hits, [3]);
    }
}

#[test]
fn one_letter_each() {
    for engine in ENGINES {
        assert_eq!(found(engine, "*", "*").hits, [0]);
        assert_eq!(found(engine, "e", "a").hits, []);
    }
    assert_eq!(found(Engine::Brute, "e", "a").work, work(1, 0, 0));
}

/// What each engine, in the order of the report, is to find and to count.
fn each_finds(pattern: &str, text: &str, hits: &[u32], works: [Work; 6]) {
    for (engine, work) in ENGINES.into_iter().zip(works) {
        let due = Found { hits: hits.to_vec(), work };
        assert_eq!(found(engine, pattern, text), due, "{engine:?} {pattern} {text}");
    }
}

#[test]
fn a_name_that_a_mark_cuts_is_not_found() {
    let works = [work(12, 0, 0), work(11, 0, 0), work(9, 0, 0), work(11, 0, 0), work(0, 0, 9), work(5, 0, 6)];
    each_finds("anna", "an|naanna", &[5], works);
}

#[test]
fn a_mark_belongs_to_no_star() {
    let one = work(1, 0, 0);
    each_finds("*", "|", &[], [one, one, one, one, work(0, 0, 1), one]);
    let three = work(3, 0, 0);
    each_finds("**", "*|*", &[], [three, three, one, three, work(0, 0, 3), work(2, 0, 1)]);
}

/// KMP carries an unsure letter on to the next start and comes to the same mark again. BM goes by R of the mark.
#[test]
fn a_mark_behind_unsure_letters() {
    let works = [work(9, 0, 0), work(8, 1, 0), work(4, 0, 0), work(7, 0, 0), work(0, 0, 6), work(3, 0, 3)];
    each_finds("aan", "[an][an]|aan", &[3], works);
}

/// The letter after the window is a mark, so that Sunday goes on by m + 1.
#[test]
fn sunday_goes_on_behind_a_mark() {
    assert_eq!(found(Engine::Sunday, "an", "ee|an"), Found { hits: vec![3], work: work(3, 0, 0) });
    assert_eq!(found(Engine::Hybrid, "an", "ee|an"), Found { hits: vec![3], work: work(2, 0, 2) });
    assert_eq!(r(&aen("a*"), MARK), -1);
}

#[test]
fn a_pattern_longer_than_the_text() {
    for engine in ENGINES {
        assert_eq!(found(engine, "an", "a"), Found::default());
        assert_eq!(found(engine, "an", ""), Found::default());
    }
}

#[test]
fn all_starts_of_aaa() {
    for engine in ENGINES {
        assert_eq!(found(engine, "a", "aaa").hits, [0, 1, 2]);
    }
}

#[test]
fn wrong_letters() {
    for engine in ENGINES {
        assert_eq!(search(engine, 3, &[1], &[1, 2, 8]), Err(Refusal { number: 5, place: 2 }));
        assert_eq!(search(engine, 3, &[1, 0], &[1, 2, 8]), Err(Refusal { number: 4, place: 1 }));
        assert_eq!(search(engine, 3, &[MARK], &[MARK]), Err(Refusal { number: 4, place: 0 }));
        assert_eq!(search(engine, 3, &[1], &[MARK, MARK, 8, MARK]), Err(Refusal { number: 5, place: 2 }));
    }
}

#[test]
fn the_first_hit() {
    let rows = [
        ("anna", "annann[ae]nann[an]", Some(0), 4),
        ("an", "eeean", Some(3), 5),
        ("na", "annan", Some(2), 5),
        ("e", "a", None, 1),
        ("an", "a", None, 0),
        ("an", "", None, 0),
        ("an", "an", Some(0), 2),
        ("anna", "an|naanna", Some(5), 12),
        ("*", "|", None, 1),
        ("n", "||n|", Some(2), 3),
    ];
    for (pattern, text, start, scan) in rows {
        assert_eq!(first(3, &aen(pattern), &aen(text)), Ok(First { start, scan }), "{pattern} in {text}");
    }
    // The hit at 0 is found with two tests, and the letter behind it is refused all the same.
    assert_eq!(first(3, &[1, 4], &[1, 4, 8]), Err(Refusal { number: 5, place: 2 }));
    assert_eq!(first(3, &[1, 8], &[1, 4, 8]), Err(Refusal { number: 4, place: 1 }));
    assert_eq!(first(3, &[1, MARK], &[1, MARK]), Err(Refusal { number: 4, place: 1 }));
}

#[test]
fn c_is_given_the_start_only_if_there_is_one() {
    assert_eq!(First { start: Some(3), scan: 5 }.numbers(), [5, 3]);
    assert_eq!(First { start: None, scan: 1 }.numbers(), [1]);
}

/// The starts that are bound-listed over abcd.
#[test]
fn the_bound_starts() {
    let rows: [(&str, &str, &[u32], &[u32]); 12] = [
        // Pattern, text, hits, bound starts. Narrowing from left to right passes the first one.
        ("[ab][abc][ab]", "[abc]ab", &[0], &[]),
        ("[ab][bc]", "[ac][ab]", &[0], &[]),
        ("[abc][abc]", "[ab][bc]", &[0], &[0]),
        ("[ab]", "[ab]", &[0], &[0]),
        ("[ab][ab]", "aabb[ab][ab]", &[0, 1, 2, 3, 4], &[0, 2, 3, 4]),
        ("[ab]", "|[ab]ac", &[1, 2], &[1, 2]),
        // A choice holds for one hit, and the next one has its own.
        ("[ab]", "abab", &[0, 1, 2, 3], &[0, 1, 2, 3]),
        ("*", "|", &[], &[]),
        ("**", "*|*", &[], &[]),
        ("ab", "a", &[], &[]),
        ("ab", "", &[], &[]),
        // One set in the pattern and under it.
        ("a[ab]", "[ab]b", &[0], &[]),
    ];
    for (pattern, text, all, listed) in rows {
        let (p, t) = (abcd(pattern), abcd(text));
        assert_eq!(hits(&p, &t), all, "{pattern} in {text}");
        assert_eq!(bound(4, &p, &t), Ok(listed.to_vec()), "{pattern} in {text}");
    }
}

/// The choices over abcd, each at a start that is a hit.
#[test]
fn the_bound_choices() {
    let rows: [(&str, &str, usize, Option<&[u32]>); 13] = [
        ("[ab][abc][ab]", "[abc]ab", 0, None),
        ("[ab][bc]", "[ac][ab]", 0, None),
        ("[abc][abc]", "[ab][bc]", 0, Some(&[1, 1])),
        ("[ab]", "[ab]", 0, Some(&[0])),
        ("[ab][ab]", "aabb[ab][ab]", 0, Some(&[0, 0])),
        ("[ab][ab]", "aabb[ab][ab]", 1, None),
        ("[ab][ab]", "aabb[ab][ab]", 2, Some(&[1, 1])),
        // The second pair is one set twice, and the first one has decided.
        ("[ab][ab]", "aabb[ab][ab]", 3, Some(&[1, 1])),
        ("[ab][ab]", "aabb[ab][ab]", 4, Some(&[0, 0])),
        ("[ab]", "|[ab]ac", 2, Some(&[0])),
        ("*[cd]", "[bcd]d", 0, Some(&[1, 3])),
        // d decides at the end, and all that is tied to it follows.
        ("[ad][bd][cd]", "[bd][cd]d", 0, Some(&[3, 3, 3])),
        ("b", "*", 0, Some(&[1])),
    ];
    for (pattern, text, start, due) in rows {
        let (p, t) = (abcd(pattern), abcd(text));
        let due = due.map(<[u32]>::to_vec);
        assert_eq!(tried(&p, &t[start..start + p.len()]), due, "{pattern} in {text} at {start}");
        for lent in p.len()..p.len() + 3 {
            assert_eq!(bound_choice(4, &p, &t, start, lent), Ok(due.clone()), "{pattern} in {text} at {start}");
        }
    }
}

#[test]
fn refused_choices() {
    let refused = |pattern: &[u32], text: &[u32], start, lent| {
        bound_choice(4, pattern, text, start, lent).err().map(|r| (r.number, r.place))
    };
    let (p, t) = (abcd("[ab][ab]"), abcd("aabb[ab][ab]"));
    assert_eq!(refused(&p, &t, 4, 2), None);
    for start in [5, 6, 7, 65_536, 1 << 32, usize::MAX - 2, usize::MAX - 1, usize::MAX] {
        assert_eq!(refused(&p, &t, start, 2), Some((16, 0)), "start {start}");
        assert_eq!(refused(&p, &t, start, 0), Some((16, 0)), "start {start}, no room");
    }
    // A short list is refused whether the start is listed, as 0, or not, as 1.
    for (start, lent) in [(0, 0), (0, 1), (1, 0), (1, 1)] {
        assert_eq!(refused(&p, &t, start, lent), Some((8, 0)));
    }
    assert_eq!(refused(&p, &t[..1], 0, 2), Some((16, 0)));
    assert_eq!(refused(&p, &[], 0, 2), Some((16, 0)));
    // What a search refuses comes before both.
    assert_eq!(refused(&[1, MARK], &[1, 16], 9, 0), Some((4, 1)));
    assert_eq!(refused(&[1], &[MARK, 1, 16], usize::MAX, 0), Some((5, 2)));
    assert_eq!(refused(&[], &[16], 9, 0), Some((2, 0)));
    assert_eq!(bound(4, &[1], &[1, MARK, 16]), Err(Refusal { number: 5, place: 2 }));
    assert_eq!(bound(0, &[], &[]), Err(Refusal { number: 1, place: 0 }));
    assert_eq!(bound(4, &[1], &vec![1; MAX_N + 1]), Err(Refusal { number: 3, place: 0 }));
}

/// What is shared at a start, over aen: a is 1, e 2, n 4.
#[test]
fn the_reasons() {
    let page = "annann[ae]nann[an]";
    let rows: [(&str, &str, usize, &[u32]); 13] = [
        ("anna", page, 0, &[1, 4, 4, 1]),
        ("anna", page, 3, &[1, 4, 4, 1]),
        ("anna", page, 8, &[1, 4, 4, 1]),
        // No hit: every set is written, also behind the first empty one.
        ("anna", page, 1, &[0, 4, 0, 0]),
        ("anna", page, 5, &[0, 0, 4, 1]),
        // A name that a mark cuts.
        ("anna", "an|naanna", 0, &[1, 4, 0, 0]),
        ("anna", "an|naanna", 5, &[1, 4, 4, 1]),
        ("*", "[ae]", 0, &[3]),
        ("[ae]", "*", 0, &[3]),
        ("*", "|", 0, &[0]),
        ("***", "*|[en]", 0, &[7, 0, 6]),
        ("[ae][an]", "n[en][an]e", 1, &[2, 5]),
        ("e", "a", 0, &[0]),
    ];
    for (pattern, text, start, due) in rows {
        let (p, t) = (aen(pattern), aen(text));
        for lent in p.len()..p.len() + 3 {
            assert_eq!(reasons(3, &p, &t, start, lent), Ok(due.to_vec()), "{pattern} in {text} at {start}");
        }
    }
    assert_eq!(shared(!0, 1 << 31), 1 << 31);
    assert_eq!(shared(!0, !0), !0);
    assert_eq!(shared(!0, MARK), MARK);
}

#[test]
fn refused_reasons() {
    let refused = |pattern: &[u32], text: &[u32], start, lent| {
        reasons(3, pattern, text, start, lent).err().map(|r| (r.number, r.place))
    };
    let (p, t) = (aen("anna"), aen("annann[ae]nann[an]"));
    assert_eq!(refused(&p, &t, 8, 4), None);
    for start in [9, 10, 12, 13, 65_536, 1 << 32 | 3, usize::MAX - 4, usize::MAX - 3, usize::MAX] {
        for lent in [0, 3, 4] {
            assert_eq!(refused(&p, &t, start, lent), Some((16, 0)), "start {start}, {lent} lent");
        }
    }
    // A short list is refused at a hit, as 3 is, and where there is none.
    for (start, lent) in [(3, 0), (3, 3), (1, 0), (1, 3)] {
        assert_eq!(refused(&p, &t, start, lent), Some((8, 0)));
    }
    assert_eq!(refused(&p, &t[..3], 0, 4), Some((16, 0)));
    assert_eq!(refused(&p, &[], 0, 4), Some((16, 0)));
    // What a search refuses comes before both, wherever the wrong letter stands.
    assert_eq!(refused(&[1, MARK], &[1, 8], 9, 0), Some((4, 1)));
    assert_eq!(refused(&[1], &[MARK, 1, 8], usize::MAX, 0), Some((5, 2)));
    assert_eq!(refused(&[1], &[8, 1, 8], 1, 1), Some((5, 0)));
    assert_eq!(refused(&[], &[8], 9, 0), Some((2, 0)));
    assert_eq!(refused(&[1; 65], &[8], 9, 0), Some((2, 0)));
    assert_eq!(refused(&[MARK], &vec![8; MAX_N + 1], 9, 0), Some((3, 0)));
    assert_eq!(reasons(0, &[], &[], 0, 0), Err(Refusal { number: 1, place: 0 }));
    assert_eq!(reasons(33, &[1], &[1], 0, 1), Err(Refusal { number: 1, place: 0 }));
}

#[test]
fn products() {
    assert_eq!(to_products(3, &[3, 4, 7], 3), Ok(vec![6, 5, 30]));
    assert_eq!(from_products(3, &[6, 5, 30], 3), Ok(vec![3, 4, 7]));
    assert_eq!(products_meet(3, 6, 10), Ok(true));
    assert_eq!(products_meet(3, 6, 5), Ok(false));
    for value in [0, 4, 7] {
        assert_eq!(from_products(3, &[value], 1), Err(Refusal { number: 7, place: 0 }));
        assert_eq!(products_meet(3, value, 6), Err(Refusal { number: 7, place: 0 }));
        assert_eq!(products_meet(3, 6, value), Err(Refusal { number: 7, place: 1 }));
    }
    assert_eq!(product(0x1ff), 223_092_870);
}

#[test]
fn the_product_of_a_mark_is_1() {
    assert_eq!(aen("[ae]|*"), [3, MARK, 7]);
    assert_eq!(to_products(3, &aen("[ae]|*"), 3), Ok(vec![6, 1, 30]));
    assert_eq!(from_products(3, &[6, 1, 30], 3), Ok(aen("[ae]|*")));
    for (a, b) in [(1, 6), (6, 1), (1, 30), (1, 1)] {
        assert_eq!(products_meet(3, a, b), Ok(false), "{a} {b}");
    }
    assert_eq!(products_meet(3, 0, 1), Err(Refusal { number: 7, place: 0 }));
    assert_eq!(products_meet(3, 1, 0), Err(Refusal { number: 7, place: 1 }));
    assert_eq!(from_products(3, &[1, 1, 0], 3), Err(Refusal { number: 7, place: 2 }));
    assert_eq!(to_products(3, &[MARK, 8], 2), Err(Refusal { number: 5, place: 1 }));
}

#[test]
fn limits() {
    let number = |k, m, n| search(Engine::Brute, k, &vec![1; m], &vec![1; n]).err().map(|r| r.number);
    assert_eq!(number(0, 1, 1), Some(1));
    assert_eq!(number(33, 1, 1), Some(1));
    assert_eq!(number(32, 1, 1), None);
    assert_eq!(number(3, 0, 1), Some(2));
    assert_eq!(number(3, 65, 1), Some(2));
    assert_eq!(number(3, 64, 1), None);
    assert_eq!(number(3, 1, MAX_N), None);
    assert_eq!(number(3, 1, MAX_N + 1), Some(3));
}

#[test]
fn meeting_is_not_transitive() {
    let (a, ae, e) = (1, 3, 2);
    assert!(meets(a, ae) && meets(ae, e) && !meets(a, e));
    assert!(single(a) && !single(ae) && !single(MARK));
    assert!((0..32).all(|b| !meets(1 << b, MARK)) && !meets(!0, MARK) && !meets(MARK, MARK));
}

#[test]
fn the_greatest_over_all_members_counts() {
    let long: &str = &format!("n{}", "a".repeat(63));
    let rows = [
        // Pattern, letter, R.
        ("aea", "e", 1),
        ("aea", "a", 2),
        // Index 0 alone meets.
        ("nea", "n", 0),
        ("n", "*", 0),
        (long, "n", 0),
        (long, "[en]", 0),
        ("[an]ee", "[an]", 0),
        // None meets.
        ("an", "e", -1),
        ("a", "[en]", -1),
        (long, "e", -1),
        ("a*", "|", -1),
        (long, "|", -1),
        // e stands behind a in the pattern, so a doubt of both is found at e, which is not the lowest of them.
        ("ane", "[ae]", 2),
        ("aan", "*", 2),
        // a is the lowest of both and stands behind n.
        ("nea", "[an]", 2),
        (long, "[an]", 63),
    ];
    for (pattern, letter, due) in rows {
        assert_eq!(r(&aen(pattern), aen(letter)[0]), due, "{letter} in {pattern}");
    }
    assert_eq!(hits(&aen("ae"), &aen("a[ae]e")), [0, 1]);
}

/// Sheets that are refused, with number and place. The counts stand at bytes 0, 6 and 10, the lines at 2, 8 and 12,
/// unless an earlier part is longer or shorter.
const REFUSED: [(&str, u32, usize); 45] = [
    ("", 11, 0),
    ("3", 11, 0),
    ("\n", 11, 0),
    ("03\naen\n1\na\n1\na\n", 11, 0),
    ("+3\naen\n1\na\n1\na\n", 11, 0),
    (" 3\naen\n1\na\n1\na\n", 11, 0),
    ("3\r\naen\r\n1\r\na\r\n1\r\na\r\n", 11, 0),
    ("0\n\n1\na\n1\na\n", 1, 0),
    ("33\naen\n1\na\n1\na\n", 1, 0),
    ("3\nae\n1\na\n1\na\n", 12, 4),
    ("3\naea\n1\na\n1\na\n", 12, 4),
    ("3\na*n\n1\na\n1\na\n", 12, 3),
    ("3\na|n\n1\na\n1\na\n", 12, 3),
    ("1\n|\n1\n|\n1\n|\n", 12, 2),
    ("3\naen|\n1\na\n1\na\n", 12, 5),
    ("3\naenx\n1\na\n1\na\n", 12, 5),
    ("3\naen", 12, 5),
    ("3\naen\r\n1\na\n1\na\n", 12, 5),
    ("3\naen\n", 11, 6),
    ("3\naen\n\na\n1\na\n", 11, 6),
    ("3\naen\n0\n\n1\na\n", 2, 6),
    ("3\naen\n65\na\n1\na\n", 2, 6),
    ("3\naen\n2\na\n1\na\n", 14, 6),
    ("3\naen\n1\naa\n1\na\n", 14, 6),
    ("3\naen\n1\nx\n1\na\n", 13, 8),
    ("3\naen\n1\n|\n1\na\n", 13, 8),
    ("3\naen\n9\na*|\n1\na\n", 13, 10),
    ("3\naen\n1\n[|n]\n1\na\n", 13, 9),
    ("3\naen\n1\n[a|n]\n1\na\n", 13, 10),
    ("3\naen\n1\nx|\n1\na\n", 13, 8),
    ("3\naen\n1\na", 13, 9),
    ("3\naen\n1\na\n", 11, 10),
    ("3\naen\n1\na\n00\n\n", 11, 10),
    ("3\naen\n1\na\n65536\na\n", 14, 10),
    ("3\naen\n1\na\n65537\na\n", 3, 10),
    ("3\naen\n1\na\n99999\na\n", 3, 10),
    ("3\naen\n1\na\n100000\na\n", 11, 10),
    ("3\naen\n1\na\n1\n[a", 13, 14),
    ("3\naen\n1\na\n1\naa[ea]\n", 13, 16),
    ("3\naen\n1\na\n1\naa\nx", 14, 10),
    ("3\naen\n1\na\n0\n|\n", 14, 10),
    ("3\naen\n1\na\n2\na|a\n", 14, 10),
    ("3\naen\n1\na\n1\n|\n|", 15, 14),
    ("3\naen\n1\na\n1\na\nx", 15, 14),
    ("3\naen\n1\na\n1\na\n\n", 15, 14),
];

#[test]
fn refused_sheets() {
    for (sheet, number, place) in REFUSED {
        assert_eq!(report(sheet.as_bytes()), Err(Refusal { number, place }), "{sheet:?}");
    }
}

#[test]
fn refused_lines() {
    // Alphabet, text line, the wrong byte counted from the line's first one.
    let rows = [
        ("aen", "[ea]", 2),
        ("aen", "[a]", 2),
        ("aen", "[]", 1),
        ("aen", "[n", 1),
        ("aen", "[aen]", 3),
        ("aen", "[aa", 2),
        ("aen", "[a*", 2),
        ("aen", "]", 0),
        ("aen", "a n", 1),
        ("aen", "a[ae]\r", 5),
        ("ae", "a[ae]", 1),
        ("ae", "**[", 2),
        ("a", "a*", 1),
        ("a", "[a]", 0),
        ("abcd", "[abcd]", 4),
        ("abcd", "[bcd][cd][d]", 10),
        ("aen", "|[|", 2),
        ("aen", "[a|n]", 2),
        ("aen", "[a|]", 2),
        ("aen", "[ae|", 3),
        ("ae", "|[|", 1),
        ("a", "|*", 1),
    ];
    for (alphabet, line, wrong) in rows {
        let front = format!("{}\n{alphabet}\n1\na\n1\n", alphabet.len());
        let sheet = format!("{front}{line}\n");
        assert_eq!(report(sheet.as_bytes()), Err(Refusal { number: 13, place: front.len() + wrong }), "{sheet:?}");
    }
}

#[test]
fn the_empty_text_has_an_empty_line() {
    let printed = String::from_utf8(printed(b"3\naen\n1\na\n0\n\n")).unwrap();
    assert_eq!(printed, "hits 0\nbrute 0 0 0\nkmp 0 0 0\nbm 0 0 0\nsunday 0 0 0\nshiftand 0 0 0\nhybrid 0 0 0\n");
}

#[test]
fn a_text_of_marks() {
    let sheet = write(1, b"a", &[1], &[MARK, 1, MARK, MARK], 99).unwrap();
    assert_eq!(String::from_utf8(sheet.clone()).unwrap(), "1\na\n1\na\n4\n|a||\n");
    assert_eq!(read(&sheet, Room::AMPLE).unwrap().text, [MARK, 1, MARK, MARK]);
    let printed = String::from_utf8(printed(&sheet)).unwrap();
    let works = "brute 4 0 0\nkmp 4 0 0\nbm 4 0 0\nsunday 3 0 0\nshiftand 0 0 4\nhybrid 3 0 2\n";
    assert_eq!(printed, ["hits 1\n1\n", works].concat());
}

#[test]
fn the_writer_takes_marks_in_the_text_alone() {
    let refused = |alphabet: &[u8], pattern: &[u32], text: &[u32]| write(3, alphabet, pattern, text, 99).unwrap_err();
    assert_eq!(refused(b"ae|", &[1], &[1]), Refusal { number: 12, place: 2 });
    assert_eq!(refused(b"|*|", &[1], &[1]), Refusal { number: 12, place: 0 });
    assert_eq!(refused(b"aen", &[1, MARK], &[8]), Refusal { number: 4, place: 1 });
    assert_eq!(refused(b"aen", &[1], &[MARK, 8]), Refusal { number: 5, place: 1 });
}

#[test]
fn c_is_told_number_and_place_in_one() {
    let rows = [(8, 0, -8), (13, 24, -13 - 256 * 24), (5, 65_535, -5 - 256 * 65_535), (15, 1, -271)];
    for (number, place, code) in rows {
        assert_eq!(Refusal { number, place }.code(), code);
        assert_eq!(Refusal { number, place }.number_code(), -i64::from(number));
    }
    for place in [(1 << 48) - 1, 1 << 48, (1 << 48) + 1, usize::MAX] {
        assert_eq!(Refusal { number: 15, place }.code(), -15 - 256 * (place as i128).min(1 << 48) as i64);
    }
}
