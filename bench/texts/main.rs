// The algorithm of rust-analyzer's `apply_document_changes` and `LineEndings::normalize` in plain Rust, over the same inputs
// as the words `texts` and `endings` of crates/bench, with the same sums. Build it by `rustc -O --edition 2021 main.rs`. Its two numbers
// are the edits and the lines. Written for this comparison; the line index is a list of line starts and of the wide characters of each
// line, as the crate `line-index` keeps them.
use std::collections::HashMap;
use std::time::Instant;

/// Which of sixteen bytes are above ASCII, and which are this byte.
fn masks(bytes: &[u8], byte: u8) -> (u32, u32) {
    use std::arch::x86_64::*;
    unsafe {
        let chunk = _mm_loadu_si128(bytes.as_ptr() as *const __m128i);
        let equal = _mm_cmpeq_epi8(chunk, _mm_set1_epi8(byte as i8));
        (_mm_movemask_epi8(chunk) as u32, _mm_movemask_epi8(equal) as u32)
    }
}

fn find(bytes: &[u8], byte: u8) -> Option<usize> {
    let mut i = 0;
    while i + 16 <= bytes.len() {
        let (_, equal) = masks(&bytes[i..i + 16], byte);
        if equal != 0 {
            return Some(i + equal.trailing_zeros() as usize);
        }
        i += 16;
    }
    bytes[i..].iter().position(|b| *b == byte).map(|at| i + at)
}

struct Wide {
    start: u32,
    end: u32,
    units: u32,
}

struct Index {
    newlines: Vec<u32>,
    wide: HashMap<u32, Vec<Wide>>,
    len: u32,
}

impl Index {
    fn new(text: &str) -> Index {
        let mut newlines = Vec::new();
        let mut wide: HashMap<u32, Vec<Wide>> = HashMap::new();
        let bytes = text.as_bytes();
        let mut start = 0u32;
        let mut i = 0;
        while i < bytes.len() {
            // Sixteen bytes at a time where all are ASCII, as `line-index` does.
            if i + 16 <= bytes.len() {
                let (high, mut newline) = masks(&bytes[i..i + 16], b'\n');
                if high == 0 {
                    while newline != 0 {
                        let at = (i as u32) + newline.trailing_zeros() + 1;
                        newlines.push(at);
                        start = at;
                        newline &= newline - 1;
                    }
                    i += 16;
                    continue;
                }
            }
            let b = bytes[i];
            if b == b'\n' {
                newlines.push(i as u32 + 1);
                start = i as u32 + 1;
                i += 1;
            } else if b < 0x80 {
                i += 1;
            } else {
                let len = if b < 0xe0 { 2 } else if b < 0xf0 { 3 } else { 4 };
                let line = newlines.len() as u32;
                wide.entry(line).or_default().push(Wide {
                    start: i as u32 - start,
                    end: i as u32 - start + len,
                    units: if len == 4 { 2 } else { 1 },
                });
                i += len as usize;
            }
        }
        Index { newlines, wide, len: bytes.len() as u32 }
    }

    fn offset(&self, line: u32, character: u32) -> Option<u32> {
        let start = if line == 0 { 0 } else { *self.newlines.get(line as usize - 1)? };
        let end = self.newlines.get(line as usize).copied().unwrap_or(self.len);
        let mut column = character;
        if let Some(wide) = self.wide.get(&line) {
            for w in wide {
                if column > w.start {
                    column += (w.end - w.start) - w.units;
                } else {
                    break;
                }
            }
        }
        Some((start + column).min(end))
    }
}

impl Index {
    /// The line and the column in code units at an offset.
    fn position(&self, offset: u32) -> (u32, u32) {
        let line = self.newlines.partition_point(|start| *start <= offset);
        let start = if line == 0 { 0 } else { self.newlines[line - 1] };
        let bytes = offset - start;
        let mut column = bytes;
        if let Some(wide) = self.wide.get(&(line as u32)) {
            for w in wide.iter().take_while(|w| w.end <= bytes) {
                column -= (w.end - w.start) - w.units;
            }
        }
        (line as u32, column)
    }
}

struct Change {
    range: ((u32, u32), (u32, u32)),
    text: String,
}

fn apply(contents: &str, changes: &[Change]) -> String {
    let mut text = contents.to_owned();
    let mut index = Index::new(&text);
    let mut index_valid = !0u32;
    for change in changes {
        let (start, end) = change.range;
        if index_valid <= end.0 {
            index = Index::new(&text);
        }
        index_valid = start.0;
        if let (Some(a), Some(b)) = (index.offset(start.0, start.1), index.offset(end.0, end.1)) {
            if a <= b {
                text.replace_range(a as usize..b as usize, &change.text);
            }
        }
    }
    text
}

fn find_crlf(bytes: &[u8]) -> Option<usize> {
    // Stands for `memmem`.
    let mut from = 0;
    while let Some(gap) = find(&bytes[from..], b'\r') {
        let at = from + gap;
        if bytes.get(at + 1) == Some(&b'\n') {
            return Some(at);
        }
        from = at + 1;
    }
    None
}

fn normalize(src: String) -> (String, bool) {
    let mut buf = src.into_bytes();
    let mut gap_len = 0;
    let mut tail = buf.as_mut_slice();
    let mut crlf_seen = false;
    loop {
        let idx = match find_crlf(&tail[gap_len..]) {
            None if crlf_seen => tail.len(),
            None => return (unsafe { String::from_utf8_unchecked(buf) }, false),
            Some(idx) => {
                crlf_seen = true;
                idx + gap_len
            }
        };
        tail.copy_within(gap_len..idx, 0);
        tail = &mut tail[idx - gap_len..];
        if tail.len() == gap_len {
            break;
        }
        gap_len += 1;
    }
    let new_len = buf.len() - gap_len;
    let src = unsafe {
        buf.set_len(new_len);
        String::from_utf8_unchecked(buf)
    };
    (src, true)
}

fn lines(count: u32, end: &str) -> String {
    let mut text = String::new();
    for _ in 0..count {
        text.push_str("    let value = other + 1234;");
        text.push_str(end);
    }
    text
}

fn letter(line: u32, character: u32) -> Change {
    Change { range: ((line, character), (line, character)), text: "x".to_owned() }
}

fn digest(text: &str) -> u64 {
    text.bytes().fold(0u64, |sum, b| sum.wrapping_mul(31).wrapping_add(u64::from(b)))
}

fn tell(name: &str, sum: u64, micros: u128) {
    eprintln!("  {name}: {micros} us");
    println!("  {name}: {sum}");
}

fn report(name: &str, start: Instant, text: &str) {
    let micros = start.elapsed().as_micros();
    tell(name, digest(text), micros);
}

/// A text of one line of ASCII, with a wide character in front of it.
fn long_line(len: u32) -> String {
    let mut text = String::from("é");
    for _ in 0..len / 20 {
        text.push_str("let value = other+1;");
    }
    text.push('\n');
    text
}

/// Letters that come one by one, each to a text whose index was built.
fn type_letters(name: &str, mut text: String, places: &[(u32, u32)]) {
    let start = Instant::now();
    for (line, character) in places {
        text = apply(&text, &[letter(*line, *character)]);
    }
    report(name, start, &text);
}

/// Positions of offsets all over a text.
fn positions(name: &str, text: &str, count: u32) {
    let index = Index::new(text);
    let start = Instant::now();
    let mut sum = 0u64;
    for k in 0..count {
        let offset = k.wrapping_mul(7919) % index.len;
        if text.is_char_boundary(offset as usize) {
            let (line, column) = index.position(offset);
            sum += u64::from(line) + u64::from(column);
        }
    }
    tell(name, sum, start.elapsed().as_micros());
}

/// Offsets of positions.
fn offsets(name: &str, text: &str, places: &[(u32, u32)]) {
    let index = Index::new(text);
    let start = Instant::now();
    let mut offsets = 0u64;
    for (line, character) in places {
        if let Some(offset) = index.offset(*line, *character) {
            offsets += u64::from(offset);
        }
    }
    tell(name, offsets, start.elapsed().as_micros());
}

/// A text's copy with its lines, so many times.
fn build(name: &str, text: &str, count: u32) {
    let start = Instant::now();
    let mut lines = 0u64;
    for _ in 0..count {
        let copy = text.to_owned();
        lines += Index::new(&copy).newlines.len() as u64 + 1;
    }
    tell(name, lines, start.elapsed().as_micros());
}

fn main() {
    let numbers: Vec<u32> = std::env::args().skip(1).filter_map(|word| word.parse().ok()).collect();
    let (edits, rows) = if let [edits, rows] = numbers[..] { (edits, rows) } else { (10_000, 2_236_963) };
    println!("texts {edits} 1");
    let text = lines(edits * 2, "\n");
    let falling: Vec<Change> = (0..edits).map(|k| letter((edits - 1 - k) * 2, 4)).collect();
    let start = Instant::now();
    report("falling edits", start, &apply(&text, &falling));
    let mut seed = 1u64;
    let scattered: Vec<Change> = (0..edits)
        .map(|_| {
            seed = seed.wrapping_mul(6364136223846793005).wrapping_add(1442695040888963407);
            letter((seed >> 33) as u32 % (edits * 2), (seed >> 33) as u32 % 20)
        })
        .collect();
    let start = Instant::now();
    report("scattered edits", start, &apply(&text, &scattered));
    let ones: Vec<(u32, u32)> = (0..edits / 10).map(|k| (k * 7919 % (edits / 10), 4)).collect();
    type_letters("letters one by one", text, &ones);
    let len = edits / 10 * 1_000;
    let along: Vec<Change> = (0..edits / 10).map(|k| letter(0, k * 7919 % len)).collect();
    let start = Instant::now();
    report("edits of one long line", start, &apply(&long_line(len), &along));
    let ones: Vec<(u32, u32)> = (0..edits / 10).map(|k| (0, k * 7919 % len)).collect();
    type_letters("letters one by one in one long line", long_line(len), &ones);
    positions("positions in lines", &lines(edits * 2, "\n"), edits);
    positions("positions in one long line", &long_line(len), edits / 10);
    let ones: Vec<(u32, u32)> = (0..edits).map(|k| (k * 7919 % edits, 4)).collect();
    offsets("offsets in lines", &lines(edits, "\n"), &ones);
    let ones: Vec<(u32, u32)> = (0..edits / 10).map(|k| (0, k * 7919 % len)).collect();
    offsets("offsets in one long line", &long_line(len), &ones);
    build("indices built anew", &lines(edits * 2, "\n"), edits / 50);
    println!("endings {rows} 1");
    for (name, end) in [("lines that end with LF", "\n"), ("lines that end with CR LF", "\r\n")] {
        let text = lines(rows, end);
        let start = Instant::now();
        report(name, start, &normalize(text).0);
    }
}
