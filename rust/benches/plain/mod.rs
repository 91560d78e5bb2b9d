//! A plain reader of colouring files, as one would write it for use and not for proof: by the standard library's `split`, without
//! allocating, and without a thought to speed beyond that. The proved library is timed beside it.

use zomuwedli::{Refusal, Written, MAX_FILE, MAX_ITEMS, MAX_SETTINGS};

use crate::support::Answer;

/// What the lines say so far.
struct Read {
    /// Vertices and edges, as the `p` line states them.
    stated: Option<(u32, u32)>,
    lines: u32,
    looped: bool,
    linked: [[bool; MAX_ITEMS]; MAX_ITEMS],
}

fn number(field: Option<&[u8]>) -> Option<u32> {
    let field = field.filter(|field| (1..=9).contains(&field.len()) && field.iter().all(u8::is_ascii_digit))?;
    Some(field.iter().fold(0, |number, digit| 10 * number + u32::from(digit - b'0')))
}

impl Read {
    fn line(&mut self, line: &[u8]) -> Option<()> {
        if line.starts_with(b"c") {
            return Some(());
        }
        let mut fields = line.split(|&byte| byte == b' ');
        match (fields.next()?, self.stated) {
            (b"p", None) => {
                fields.next().filter(|&word| word == b"edge")?;
                self.stated = Some((number(fields.next())?, number(fields.next())?));
            }
            (b"e", Some((vertices, _))) => self.edge(number(fields.next())?, number(fields.next())?, vertices)?,
            _ => return None,
        }
        fields.next().is_none().then_some(())
    }

    fn edge(&mut self, a: u32, b: u32, vertices: u32) -> Option<()> {
        let inside = |vertex| 1 <= vertex && vertex <= vertices;
        if !inside(a) || !inside(b) {
            return None;
        }
        self.lines += 1;
        self.looped |= a == b;
        if vertices as usize <= MAX_ITEMS {
            self.linked[a.min(b) as usize - 1][a.max(b) as usize - 1] = true;
        }
        Some(())
    }
}

fn read(file: &[u8]) -> Option<Read> {
    let mut read = Read { stated: None, lines: 0, looped: false, linked: [[false; MAX_ITEMS]; MAX_ITEMS] };
    if file.len() > MAX_FILE {
        return None;
    }
    let lines = file.strip_suffix(b"\n").unwrap_or(file);
    lines.split(|&byte| byte == b'\n').try_for_each(|line| read.line(line))?;
    Some(read)
}

pub fn colour(file: &[u8], channels: u64, sheet: &mut [u8]) -> Answer<Written> {
    let read = read(file).ok_or(Refusal::GraphFile)?;
    let (vertices, edges) = read.stated.ok_or(Refusal::GraphFile)?;
    if read.looped {
        return Err(Refusal::GraphLoop.into());
    }
    if read.lines != edges {
        return Err(Refusal::EdgeCount.into());
    }
    let n = vertices as usize;
    if !(1..=MAX_ITEMS).contains(&n) || !(1..=MAX_SETTINGS as u64).contains(&channels) {
        return Err(Refusal::ColourRange.into());
    }
    let size = channels as usize;
    let blocks = read.linked.iter().flatten().filter(|&&linked| linked).count();
    let length = 8 + n + blocks * (2 + 2 * size);
    let sheet = sheet.get_mut(..length).ok_or(Refusal::SheetBuffer)?;
    sheet[0] = 1;
    sheet[1..5].copy_from_slice(&(length as u32).to_be_bytes());
    sheet[5] = n as u8;
    sheet[6..8].copy_from_slice(&(blocks as u16).to_be_bytes());
    sheet[8..8 + n].fill(size as u8);
    let all = u16::MAX >> (MAX_SETTINGS - size);
    let pairs = (0..n).flat_map(|i| (i + 1..n).map(move |j| (i, j))).filter(|&(i, j)| read.linked[i][j]);
    for ((i, j), block) in pairs.zip(sheet[8 + n..].chunks_exact_mut(2 + 2 * size)) {
        block[..2].copy_from_slice(&[i as u8, j as u8]);
        for (a, row) in block[2..].chunks_exact_mut(2).enumerate() {
            row.copy_from_slice(&(all & !(1 << a)).to_be_bytes());
        }
    }
    Ok(Written { bytes: length })
}
