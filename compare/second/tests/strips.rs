//! The bench strips of document 01, starred ones and the others.

use second::codec::{decode, encode, read};
use second::cover::cover;
use second::{Book, Figures};

fn figures(n: u32, q: u32, m: u32, b: u32) -> Figures {
    Figures::new(n, q, m, b).expect("these figures fit")
}

/// The symbols that a text of digits and blanks names.
fn symbols(text: &str) -> Vec<u8> {
    text.bytes()
        .filter(|&byte| byte != b' ')
        .map(|byte| byte - b'0')
        .collect()
}

fn written(f: &Figures, starts: &[u16], message: &[u8]) -> Vec<u8> {
    let mut word = vec![0xEE; f.n];
    assert_eq!(encode(f, starts, message, &mut word), 0);
    word
}

fn refusal(f: &Figures, word: &[u8]) -> u8 {
    let (mut message, mut starts) = (vec![0xEE; f.k], vec![0xEEEE; f.m]);
    let answer = decode(f, word, &mut message, &mut starts);
    if answer != 0 {
        assert!(message.iter().all(|&symbol| symbol == 0xEE));
        assert!(starts.iter().all(|&start| start == 0xEEEE));
    }
    answer
}

fn first() -> (Figures, Vec<u8>) {
    (
        figures(30, 2, 1, 3),
        symbols("0 11111111111 000 11111 101100 1111"),
    )
}

#[test]
fn first_strip() {
    let (f, word) = first();
    assert_eq!((f.t, f.r, f.k), (28, 5, 20));
    assert_eq!(written(&f, &[12], &[1; 20]), word);
    let (mut message, mut starts) = ([0; 20], [0; 1]);
    assert_eq!(decode(&f, &word, &mut message, &mut starts), 0);
    assert_eq!((message, starts), ([1; 20], [12]));
}

#[test]
fn burst_lengths_there() {
    assert!(Figures::new(30, 2, 1, 5).is_ok());
    assert_eq!(Figures::new(30, 2, 1, 6), Err(2));
}

/// The rank that a word's reader finds, and the I-blocks' heads at the given block starts.
fn heads(f: &Figures, word: &[u8], begins: &[usize]) -> (u64, Vec<Vec<u8>>) {
    let found = read(f, word).expect("a written word is read");
    let head = |&begin: &usize| word[begin..begin + 1 + f.r].to_vec();
    (found.rank, begins.iter().map(head).collect())
}

#[test]
fn two_runs() {
    let f = figures(60, 4, 2, 4);
    assert_eq!((f.t, f.r, f.k), (1431, 2, 44));
    let word = written(&f, &[8, 12], &[3; 44]);
    let (rank, heads) = heads(&f, &word, &[20, 30]);
    assert_eq!(rank, 44);
    assert_eq!(heads, [symbols("100"), symbols("330")]);
}

#[test]
fn three_runs() {
    let f = figures(90, 3, 3, 3);
    assert_eq!((f.t, f.r, f.k), (95284, 3, 66));
    let word = written(&f, &[22, 30, 65], &[2; 66]);
    let (rank, heads) = heads(&f, &word, &[0, 40, 70]);
    assert_eq!(rank, 36390);
    assert_eq!(heads, [symbols("1110"), symbols("1221"), symbols("2210")]);
}

#[test]
fn shortest_strip() {
    assert_eq!(figures(3, 4, 1, 1).k, 0);
    assert_eq!(Figures::new(3, 3, 1, 1), Err(2));
}

#[test]
fn seventeen_symbols() {
    assert!(Figures::new(60, 17, 2, 9).is_ok());
    assert_eq!(Figures::new(60, 17, 2, 10), Err(2));
}

#[test]
fn covering() {
    let (f, _) = first();
    let covered = |worn: &[usize]| {
        let mut map = [0; 30];
        worn.iter().for_each(|&cell| map[cell] = 1);
        cover(&f, &map).map(|starts| starts[0])
    };
    assert_eq!(covered(&[27, 29]), Ok(27));
    assert_eq!(covered(&[26, 29]), Err(6));
    assert_eq!(covered(&[]), Ok(0));
    assert_eq!(covered(&[12]), Ok(10));
}

#[test]
fn refused_words() {
    let (f, word) = first();
    assert_eq!(refusal(&f, &[0; 30]), 7);
    assert_eq!(refusal(&f, &[1; 30]), 7);
    let changed = |head: &str| {
        let mut changed = word.clone();
        changed[20..26].copy_from_slice(&symbols(head));
        refusal(&f, &changed)
    };
    assert_eq!(changed("101100"), 0);
    assert_eq!(changed("111111"), 8);
    assert_eq!(changed("100000"), 9);
}

#[test]
fn sixty_four_numbers() {
    let mut book = Book::default();
    assert!((1..=64).all(|number| book.open(number) == 0));
    assert_eq!(book.open(65), 15);
    assert_eq!(book.finish(1), 0);
    assert_eq!(book.open(65), 0);
}

#[test]
fn cancelled_before_opening() {
    let mut book = Book::default();
    assert_eq!(book.cancel(9), 0);
    assert_eq!(book.open(9), 12);
}
