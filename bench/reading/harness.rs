// Measures how long the proved reader takes for the worst legal texts of 61,440 bytes, beside two loops that sum the same bytes, one byte at a step and vectorised.
use std::hint::black_box;
use std::time::Instant;

const SIZE: usize = 61_440;
const ROUNDS: usize = 41;
const REPEATS: usize = 20;

unsafe extern "C" {
    // A slice crosses as a pointer and then a length. 0 where the text is read, else the number of the refusal.
    fn zinniahoe_read(text: *const u8, length: usize) -> u32;
}

fn read(text: &[u8]) -> u32 {
    unsafe { zinniahoe_read(text.as_ptr(), text.len()) }
}

/// One byte at a step: a load, an addition, and a count. It is written out and aligned, since the place of so short a loop changes its time by half.
#[inline(never)]
fn sum_scalar(text: &[u8]) -> u64 {
    if text.is_empty() {
        return 0;
    }
    let mut sum = 0u64;
    unsafe {
        std::arch::asm!(
            ".p2align 6",
            "2:",
            "movzx {byte:e}, byte ptr [{at}]",
            "add {sum}, {byte}",
            "inc {at}",
            "cmp {at}, {end}",
            "jne 2b",
            byte = out(reg) _,
            sum = inout(reg) sum,
            at = inout(reg) text.as_ptr() => _,
            end = in(reg) text.as_ptr().add(text.len()),
            options(nostack, readonly)
        )
    };
    sum
}

/// As the compiler likes it: 16 or 32 bytes at a step.
#[inline(never)]
fn sum_vector(text: &[u8]) -> u64 {
    text.iter().map(|b| u64::from(*b)).sum()
}

/// The least time of a call, in nanoseconds, since other work on the machine can only add to it.
fn time<T>(f: impl Fn(&[u8]) -> T, text: &[u8]) -> f64 {
    (0..ROUNDS)
        .map(|_| {
            let start = Instant::now();
            for _ in 0..REPEATS {
                black_box(f(black_box(text)));
            }
            start.elapsed().as_nanos() as f64 / REPEATS as f64
        })
        .fold(f64::INFINITY, f64::min)
}

const HEAD: &str = "HOA: v1 States: 64 Start: 0 AP: 4 \"a\" \"b\" \"c\" \"d\" Acceptance: 1 Inf(0) --BODY-- State: 0 ";
const END: &str = " --END--";

/// A text with as many repetitions as fit between head and end, filled up with blanks.
fn filled(head: &str, first: &str, again: &str, last: &str, end: &str) -> Vec<u8> {
    let mut text = String::from(head) + first;
    while !again.is_empty() && text.len() + again.len() + last.len() + end.len() <= SIZE {
        text += again;
    }
    text += last;
    text += end;
    while text.len() < SIZE {
        text.push(' ');
    }
    text.into_bytes()
}

fn texts() -> Vec<(&'static str, Vec<u8>)> {
    let deep = format!("{}0{}", "(".repeat(16), ")".repeat(16));
    let mixed = format!("{}0{}", "!(".repeat(8), ")".repeat(8));
    let nots = format!("{}0", "!".repeat(16));
    let long = "x".repeat(32);
    let names = format!("HOA: v1 States: 1 AP: 4 \"{0}1\" \"{0}2\" \"{0}3\" \"{0}4\"", &long[1..]);
    let blocks = "Acceptance: 1 Inf(0) --BODY-- State: 0 ";
    vec![
        ("and of signals, [0&0&..]", filled(HEAD, "[0", "&0", "] 0", END)),
        ("or of signals, as above with or", filled(HEAD, "[0", "|0", "] 0", END)),
        ("and of t, [t&t&..]", filled(HEAD, "[t", "&t", "] 0", END)),
        ("nots, [!..!0&!..!0]", filled(HEAD, &format!("[{nots}"), &format!("&{nots}"), "] 0", END)),
        ("parentheses, [((0))&((0))]", filled(HEAD, &format!("[{deep}"), &format!("&{deep}"), "] 0", END)),
        ("parentheses joined by or", filled(HEAD, &format!("[{deep}"), &format!("|{deep}"), "] 0", END)),
        (
            "both in turn, [!(!(0))&..]",
            filled(HEAD, &format!("[{mixed}"), &format!("&{mixed}"), "] 0", END),
        ),
        ("short not, [!0&!0&..]", filled(HEAD, "[!0", "&!0", "] 0", END)),
        ("short parenthesis, [(0)&(0)..]", filled(HEAD, "[(0)", "&(0)", "] 0", END)),
        ("and, or in turn", filled(HEAD, "[0", "&1|2", "] 0", END)),
        ("many labels, [0]0[0]0..", filled(HEAD, "", "[0]0", "", END)),
        ("many labels of t, [t]0..", filled(HEAD, "", "[t]0", "", END)),
        ("edges of one digit, 0 0 0 ..", filled(HEAD, "", "0 ", "", END)),
        ("edges of two digits, 63 63 ..", filled(HEAD, "", "63 ", "", END)),
        (
            "many starts",
            filled("HOA: v1 States: 64 ", "", "Start:0", "", &format!(" AP: 0 {blocks}{END}")),
        ),
        (
            "many starts, blanks",
            filled("HOA: v1 States: 64 ", "", "Start: 63 ", "", &format!("AP: 0 {blocks}{END}")),
        ),
        ("long names, then blanks", filled(&format!("{names} {blocks}"), "", " ", "", END)),
        ("blanks between", filled(HEAD, "", " ", "", END)),
        ("blanks at the end", filled(HEAD, "", "", "", END)),
        ("line feeds between", filled(HEAD, "", "\r\n", "", END)),
    ]
}

/// Texts that are refused at once, to see the price of a call.
fn refused() -> Vec<(&'static str, Vec<u8>, u32)> {
    vec![
        ("An empty text", Vec::new(), 13),
        ("A text of 61,441 bytes", vec![b' '; SIZE + 1], 18),
        ("The first text with a bad byte at its end", filled(HEAD, "[0", "&0", "] 0", " $"), 11),
    ]
}

fn main() {
    let only = std::env::args().nth(1);
    if let Some(only) = only {
        // for a profiler: one text, many times
        let text = texts().into_iter().find(|(name, _)| name.starts_with(&only)).expect("no such text").1;
        for _ in 0..400 {
            black_box(read(black_box(&text)));
        }
        return;
    }
    println!("| text | bytes | reading, µs | ns a byte | ÷ scalar sum | ÷ vectorised sum |");
    println!("|---|---|---|---|---|---|");
    let mut worst = (0.0f64, "");
    for (name, text) in texts() {
        assert_eq!(read(&text), 0, "{name}");
        let (reading, scalar, vector) = (time(read, &text), time(sum_scalar, &text), time(sum_vector, &text));
        println!(
            "| {name} | {} | {:.1} | {:.2} | {:.1} | {:.1} |",
            text.len(),
            reading / 1e3,
            reading / text.len() as f64,
            reading / scalar,
            reading / vector
        );
        if reading / scalar > worst.0 {
            worst = (reading / scalar, name);
        }
    }
    println!();
    for (name, text, number) in refused() {
        assert_eq!(read(&text), number, "{name}");
        println!("{name}, refused with {number}: {:.3} µs.", time(read, &text) / 1e3);
    }
    let text = &texts()[0].1;
    println!();
    println!(
        "Sums of {SIZE} bytes: scalar {:.1} µs, vectorised {:.1} µs.",
        time(sum_scalar, text) / 1e3,
        time(sum_vector, text) / 1e3
    );
    println!("Worst: {:.2} times the scalar sum ({}).", worst.0, worst.1);
}
