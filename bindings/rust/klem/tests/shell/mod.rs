//! klem over the bindings: what crates/klem does with a script, here with calls of this crate, so that recorded scripts can be run
//! through the archive. Nothing here knows what an answer should be.
use std::fmt::Write;

use klem::{
    check, is_digit_char, is_lead_name_char, is_name_char, name_string, pkg_length, raw_pkg_length, run, write_table, Ended, Error, Frame, Handle,
    Header, LevelType, Path, PkgLength, Table, Width,
};

const MOST_LINE: usize = 200_000;
const MOST_BYTES: usize = 100_000;

/// The commands as docs/KLEM.md lists them: each with its words, and two blanks before what it is for.
const PAGE: &str = include_str!("../../../../../docs/KLEM.md");

type Said = Result<String, Stop>;

/// Why a line has no other answer.
enum Stop {
    Refused(Error),
    Wrong(&'static str),
    Wants(&'static str),
}

impl From<Error> for Stop {
    fn from(e: Error) -> Stop {
        Stop::Refused(e)
    }
}

/// A path of a line. Memory that holds no path cannot be passed on through the bindings: the call that would make it a path has
/// refused it, and where the line's call would say so decides the line's answer.
#[derive(Clone, Copy)]
enum Arg {
    Path(Path),
    Refused(Error),
    NoPath(Error),
    Wrong,
}

pub struct Shell<M> {
    table: Table<M>,
    line: u64,
}

impl<M: AsRef<[u64]> + AsMut<[u64]>> Shell<M> {
    pub fn new(table: Table<M>) -> Shell<M> {
        Shell { table, line: 0 }
    }

    /// The answer to one line; none where it is blank or a comment.
    pub fn answer(&mut self, line: &[u8]) -> Option<String> {
        self.line += 1;
        if line.len() > MOST_LINE {
            return Some(format!("? {} line over 200000 bytes", self.line));
        }
        let end = line.iter().rposition(|b| !b" \t\r".contains(b)).map_or(0, |at| at + 1);
        let line = &line[..end];
        if line.is_empty() || line[0] == b'#' {
            return None;
        }
        Some(match self.call(line) {
            Ok(said) => said,
            Err(Stop::Refused(e)) => e.to_string(),
            Err(Stop::Wrong(why)) => format!("? {} {}", self.line, why),
            Err(Stop::Wants(usage)) => format!("? {} wants {}", self.line, usage),
        })
    }

    fn call(&mut self, line: &[u8]) -> Said {
        let w: Vec<&[u8]> = line.split(|b| b" \t".contains(b)).filter(|w| !w.is_empty()).collect();
        let usage = usage_of(w[0])?;
        if !usage.ends_with(" TEXT") && !fits(usage, w.len()) {
            return Err(Stop::Wants(usage));
        }
        match w[0] {
            b"table" | b"pkg" | b"raw" | b"char" | b"name" | b"check" => of_bytes(w[0], &hex(w[1], MOST_BYTES)?),
            b"fit" | b"still" => of_lengths(&w),
            b"seg" | b"components" => of_components(&w),
            b"text" => shown(Path::from_text(behind(line, w[0]))),
            b"write-table" => written(&w),
            b"root" => shown(Ok(Path::root())),
            b"write" | b"normal" | b"parent" | b"kind" | b"resolve" => of_paths(&w),
            b"run" => ran(&w, Width::Bits64),
            b"run32" => ran(&w, Width::Bits32),
            b"width" => Ok(format!("ok {}", Width::of_revision(byte(w[1])?).bits())),
            b"ssdt-width" => Ok(format!("ok {}", Width::of_ssdt(byte(w[1])?, byte(w[2])?).bits())),
            b"help" => helped(w.get(1)),
            b"level" | b"remove" | b"value" | b"value-at" | b"alias" | b"set" | b"set-object" | b"poke" | b"new" | b"load" => self.edits(&w),
            _ => self.looks(&w),
        }
    }

    /// Commands that change the table.
    fn edits(&mut self, w: &[&[u8]]) -> Said {
        match w[0] {
            b"new" => ok(self.table.reset()),
            b"load" => {
                let held = self.table.load(&hex(w[1], MOST_BYTES)?)?;
                Ok(format!("ok levels {} bindings {} objects {}", held.levels, held.bindings, held.objects))
            }
            b"level" => {
                let typ = number(w[2]).ok().and_then(|n| LevelType::try_from(n).ok()).ok_or(Stop::Wrong("bad type"))?;
                let p = self.paths(&w[1..2])?;
                ok(self.table.add_level(&p[0], typ))
            }
            b"remove" => {
                let p = self.paths(&w[1..])?;
                ok(self.table.remove_level(&p[0]))
            }
            b"value" => {
                let value = number(w[2])?;
                let p = self.paths(&w[1..2])?;
                handed(self.table.add_value(&p[0], value))
            }
            b"value-at" => {
                let value = number(w[3])?;
                let p = self.paths(&w[1..3])?;
                handed(self.table.add_value_at_resolved_path(&p[0], &p[1], value))
            }
            b"alias" => {
                let p = self.paths(&w[1..])?;
                handed(self.table.add_alias_at_resolved_path(&p[0], &p[1], &p[2]))
            }
            b"set" => {
                let (h, value) = (handle(w[1])?, number(w[2])?);
                ok(self.table.set(h, value))
            }
            b"set-object" => {
                let value = number(w[2])?;
                let p = self.paths(&w[1..2])?;
                ok(self.table.set_by_path(&p[0], value))
            }
            _ => {
                let (i, value) = (number(w[1])?, number(w[2])?);
                let word = self.table.words_mut().get_mut(i as usize).ok_or(Stop::Wrong("no such word"))?;
                *word = value;
                Ok("ok".into())
            }
        }
    }

    /// Commands that only ask.
    fn looks(&self, w: &[&[u8]]) -> Said {
        match w[0] {
            b"well-formed" => Ok(format!("ok {}", self.table.is_well_formed() as u8)),
            b"digest" => Ok(format!("ok {}", digest(self.table.words()))),
            b"get" => Ok(format!("ok {}", self.table.get(handle(w[1])?)?)),
            b"handle" => handed(self.table.get_handle(&self.paths(&w[1..])?[0])),
            b"object" => Ok(format!("ok {}", self.table.get_by_path(&self.paths(&w[1..])?[0])?)),
            b"search" => {
                let p = self.paths(&w[1..])?;
                let found = self.table.search(&p[0], &p[1])?;
                Ok(format!("ok {} handle {} asked {}", show(&found.path), found.handle.0, found.asked))
            }
            b"image" => {
                let room = number(w[1])? as usize;
                if room > MOST_BYTES {
                    return Err(Stop::Wrong("length over 100000"));
                }
                let mut out = vec![0; room];
                let n = self.table.image(&mut out)?;
                Ok(format!("ok {}", out[..n].iter().map(|b| format!("{b:02X}")).collect::<String>()))
            }
            b"levels" => {
                let room = number(w[2])? as usize;
                if room > MOST_BYTES {
                    return Err(Stop::Wrong("length over 100000"));
                }
                let p = self.paths(&w[1..2])?;
                let levels = self.table.levels(&p[0])?;
                if room < levels.len() {
                    return Err(Error::OutTooSmall(levels.len()).into());
                }
                Ok(format!("ok {}{}", levels.len(), levels.map(|l| format!(" {}/{}/{}", l.depth, l.typ as u64, segment(l.segment, "-"))).collect::<String>()))
            }
            b"tree" => {
                let levels = self.table.levels(&Path::root())?;
                let mut bindings = self.table.words()[128..640].iter();
                let mut drawn = format!("ok {}", levels.len());
                for (l, word) in levels.zip(self.table.words()) {
                    drawn += &format!("\n{:inset$}{} {:?}", "", segment(l.segment, "\\"), l.typ, inset = 2 * l.depth);
                    for b in bindings.by_ref().take((word >> 32 & 1023) as usize) {
                        let value = self.table.words()[641 + (b & 0xFFFF_FFFF) as usize];
                        drawn += &format!("\n{:inset$}{} = {value} handle {}", "", characters(b >> 32), b & 0xFFFF_FFFF, inset = 2 * l.depth + 2);
                    }
                }
                Ok(drawn)
            }
            _ => {
                let p = self.paths(&w[1..])?;
                let found = self.table.search_for_level(&p[0], &p[1])?;
                Ok(format!("ok {} asked {}", show(&found.path), found.asked))
            }
        }
    }

    // A call on the table tests the table's memory before its paths.
    fn paths(&self, words: &[&[u8]]) -> Result<Vec<Path>, Stop> {
        let args = args(words)?;
        if !self.table.is_well_formed() {
            return Err(Error::BadTable.into());
        }
        settled(args)
    }
}

fn segment(bytes: [u8; 4], root: &str) -> String {
    if bytes == [0; 4] {
        return root.into();
    }
    String::from_utf8_lossy(&bytes).into()
}

// A segment's number in base 37 (docs/TABLE.md).
fn characters(number: u64) -> String {
    [50653, 1369, 37, 1].iter().map(|d| b"0123456789ABCDEFGHIJKLMNOPQRSTUVWXYZ_"[(number / d % 37) as usize] as char).collect()
}

fn usages() -> impl Iterator<Item = &'static str> {
    let listed = PAGE.split("<!-- commands -->\n```\n").nth(1).and_then(|rest| rest.split("```").next()).unwrap_or("");
    listed.lines().map(|row| row.split("  ").next().unwrap_or(""))
}

fn usage_of(word: &[u8]) -> Result<&'static str, Stop> {
    usages().find(|u| u.split(' ').next().map(str::as_bytes) == Some(word)).ok_or(Stop::Wrong("no such command"))
}

// Whether a usage takes so many words: `[CELL=NUMBER ..]` any number of them, `[COMMAND]` one at most.
fn fits(usage: &str, words: usize) -> bool {
    let asked: Vec<&str> = usage.split(' ').collect();
    let least = asked.iter().position(|w| w.starts_with('[')).unwrap_or(asked.len());
    let most = if usage.ends_with("..]") { usize::MAX } else { asked.len() };
    least <= words && words <= most
}

fn helped(command: Option<&&[u8]>) -> Said {
    match command {
        Some(word) => Ok(format!("ok {}", usage_of(word)?)),
        None => Ok(format!("ok {}", usages().filter_map(|u| u.split(' ').next()).collect::<Vec<_>>().join(" "))),
    }
}

// The rest of the line behind its first word and one blank.
fn behind<'a>(line: &'a [u8], word: &[u8]) -> &'a [u8] {
    let at = line.iter().position(|b| !b" \t".contains(b)).unwrap_or(0) + word.len() + 1;
    line.get(at..).unwrap_or(b"")
}

// pkg, raw, char, name, check
fn of_bytes(command: &[u8], given: &[u8]) -> Said {
    match command {
        b"pkg" => {
            let (length, used) = pkg_length(given)?;
            Ok(format!("ok raw {} end {} used {}", length.raw_length, length.end_offset, used))
        }
        b"table" => {
            let h = Header::read(given)?;
            let letters = h.signature.letters();
            Ok(format!("ok {} revision {} body 36 to {}", String::from_utf8_lossy(&letters), h.revision, 36 + h.body.len()))
        }
        b"raw" => {
            let (raw, used) = raw_pkg_length(given)?;
            Ok(format!("ok raw {raw} used {used}"))
        }
        b"char" => match given {
            [b] => Ok(format!("ok lead {} digit {} name {}", is_lead_name_char(*b) as u8, is_digit_char(*b) as u8, is_name_char(*b) as u8)),
            _ => Err(Stop::Wrong("wants 1 byte")),
        },
        b"name" => {
            let (path, used) = name_string(given)?;
            Ok(format!("ok {} used {}", show(&path), used))
        }
        _ => ok(check(given)),
    }
}

// write-table SIG REV REST BODY ROOM: the numbers and the body before the two words of a fixed length
fn written(w: &[&[u8]]) -> Said {
    let revision = number(w[2])?;
    let body = hex(w[4], MOST_BYTES)?;
    let room = number(w[5])? as usize;
    let revision = u8::try_from(revision).map_err(|_| Stop::Wrong("bad number"))?;
    if room > MOST_BYTES {
        return Err(Stop::Wrong("length over 100000"));
    }
    let letters = fixed::<4>(w[1], "wants 4 bytes")?;
    let rest = fixed::<26>(w[3], "wants 26 bytes")?;
    let mut out = vec![0; room];
    let length = write_table(letters, revision, &rest, &body, &mut out)?;
    let mut said = String::from("ok ");
    for b in &out[..length] {
        let _ = write!(said, "{b:02X}");
    }
    Ok(said)
}

fn fixed<const N: usize>(word: &[u8], wants: &'static str) -> Result<[u8; N], Stop> {
    if word.len() / 2 != N {
        return Err(Stop::Wrong(wants));
    }
    <[u8; N]>::try_from(hex(word, N)?).map_err(|_| Stop::Wrong(wants))
}

// fit LENGTH RAW, still END LENGTH
fn of_lengths(w: &[&[u8]]) -> Said {
    let length_at = if w[0] == b"fit" { 1 } else { 2 };
    let mut n = [0; 3];
    for k in 1..3 {
        n[k] = number(w[k])? as usize;
        if k == length_at && n[k] > MOST_BYTES {
            return Err(Stop::Wrong("length over 100000"));
        }
    }
    let stream = vec![0; n[length_at]];
    if length_at == 2 {
        return Ok(format!("ok {}", PkgLength { raw_length: 0, end_offset: n[1] }.still_parsing(&stream) as u8));
    }
    let length = PkgLength::from_raw_length(&stream, n[2])?;
    Ok(format!("ok raw {} end {}", length.raw_length, length.end_offset))
}

// seg HEX, components COUNT HEX
fn of_components(w: &[&[u8]]) -> Said {
    if w[0] == b"seg" {
        let seg = <[u8; 4]>::try_from(hex(w[1], MOST_BYTES)?).map_err(|_| Stop::Wrong("wants 4 bytes"))?;
        return shown(Path::from_name_seg(seg));
    }
    let count = number(w[1])?;
    let given = hex(w[2], 128)?;
    let mut bytes = [0u8; 128];
    bytes[..given.len()].copy_from_slice(&given);
    shown(Path::from_components(count as usize, &bytes))
}

// write, normal, parent, kind, resolve
fn of_paths(w: &[&[u8]]) -> Said {
    if w[0] == b"write" {
        // here the word after the path is tested after the path's text, and before its memory
        let args = args(&w[1..2])?;
        let mut room = [0u8; 1024];
        let size = number(w[2])?.min(1024) as usize;
        let length = settled(args)?[0].write_text(&mut room[..size])?;
        return Ok(format!("ok {}", if length == 0 { "(empty)".into() } else { String::from_utf8_lossy(&room[..length]) }));
    }
    let p = paths(&w[1..])?;
    match w[0] {
        b"normal" => shown(p[0].normalize()),
        b"parent" => shown(p[0].parent()),
        b"resolve" => shown(p[0].resolve(&p[1])),
        _ => Ok(format!("ok absolute {} normal {} bare {}", p[0].is_absolute() as u8, p[0].is_normal() as u8, p[0].search_rules_apply() as u8)),
    }
}

fn paths(words: &[&[u8]]) -> Result<Vec<Path>, Stop> {
    settled(args(words)?)
}

// A word that spells nothing first, then the texts that are refused, left to right.
fn args(words: &[&[u8]]) -> Result<Vec<Arg>, Stop> {
    let args: Vec<Arg> = words.iter().map(|w| arg(w)).collect();
    if args.iter().any(|a| matches!(a, Arg::Wrong)) {
        return Err(Stop::Wrong("bad path"));
    }
    for a in &args {
        if let Arg::Refused(e) = a {
            return Err((*e).into());
        }
    }
    Ok(args)
}

fn settled(args: Vec<Arg>) -> Result<Vec<Path>, Stop> {
    args.into_iter()
        .map(|a| match a {
            Arg::Path(p) => Ok(p),
            Arg::Refused(e) | Arg::NoPath(e) => Err(e.into()),
            Arg::Wrong => Err(Stop::Wrong("bad path")),
        })
        .collect()
}

// A path's text, or `=COUNT:HEX` for any memory.
fn arg(word: &[u8]) -> Arg {
    let memory = match word {
        [b'=', memory @ ..] => memory,
        text => return Path::from_text(text).map_or_else(Arg::Refused, Arg::Path),
    };
    let at = match memory.iter().position(|b| *b == b':') {
        Some(at) => at,
        None => return Arg::Wrong,
    };
    let (count, digits) = (&memory[..at], &memory[at + 1..]);
    let (count, given) = match (number(count), if digits.is_empty() { Ok(vec![]) } else { hex(digits, 128) }) {
        (Ok(count), Ok(given)) => (count, given),
        _ => return Arg::Wrong,
    };
    let mut bytes = [0u8; 128];
    bytes[..given.len()].copy_from_slice(&given);
    Path::from_components(count as usize, &bytes).map_or_else(Arg::NoPath, Arg::Path)
}

fn show(path: &Path) -> String {
    if path.is_empty() {
        "(empty)".into()
    } else {
        path.to_string()
    }
}

fn shown(path: Result<Path, Error>) -> Said {
    Ok(format!("ok {}", show(&path?)))
}

fn ok(said: Result<(), Error>) -> Said {
    said?;
    Ok("ok".into())
}

fn handed(said: Result<Handle, Error>) -> Said {
    Ok(format!("ok handle {}", said?.0))
}

// Decimal, or `0x` and 1 to 16 hex digits.
fn number(word: &[u8]) -> Result<u64, Stop> {
    let (digits, base) = match word {
        [b'0', b'x' | b'X', digits @ ..] if digits.len() <= 16 => (digits, 16),
        digits => (digits, 10),
    };
    let text = std::str::from_utf8(digits).ok().filter(|t| t.chars().all(|c| c.is_digit(base)));
    text.and_then(|t| u64::from_str_radix(t, base).ok()).ok_or(Stop::Wrong("bad number"))
}

fn byte(word: &[u8]) -> Result<u8, Stop> {
    u8::try_from(number(word)?).map_err(|_| Stop::Wrong("bad number"))
}

// A larger number than a handle has bits for was never handed out, and neither was the largest.
fn handle(word: &[u8]) -> Result<Handle, Stop> {
    Ok(Handle(u32::try_from(number(word)?).unwrap_or(u32::MAX)))
}

fn hex(word: &[u8], most: usize) -> Result<Vec<u8>, Stop> {
    if word == b"-" {
        return Ok(vec![]);
    }
    let wrong = || Stop::Wrong("bad hex");
    if word.is_empty() || word.len() % 2 == 1 || word.len() / 2 > most {
        return Err(wrong());
    }
    let digit = |b: u8| (b as char).to_digit(16).ok_or_else(wrong);
    word.chunks_exact(2).map(|c| Ok((digit(c[0])? * 16 + digit(c[1])?) as u8)).collect()
}

// run and run32 BUDGET HEX [CELL=NUMBER ..]
fn ran(w: &[&[u8]], width: Width) -> Said {
    let budget = number(w[1])?;
    let block = hex(w[2], MOST_BYTES)?;
    let mut frame = Frame::new(width);
    for word in &w[3..] {
        let wrong = || Stop::Wrong("bad cell");
        let at = word.iter().position(|b| *b == b'=').ok_or_else(wrong)?;
        let (cell, value) = (number(&word[..at]).map_err(|_| wrong())?, number(&word[at + 1..]).map_err(|_| wrong())?);
        if cell > 14 {
            return Err(wrong());
        }
        frame.set(cell as usize, value)?;
    }
    let ran = run(&block, &mut frame, budget);
    let end = match ran.end {
        Ok(Ended::Finished) => "finished".into(),
        Ok(Ended::Returned(n)) => format!("returned {n}"),
        Ok(Ended::BreakOut) => "break".into(),
        Ok(Ended::ContinueOut) => "continue".into(),
        Err(e) => e.to_string(),
    };
    let cells: Vec<String> = (0..15).map(|c| frame.get(c).map_or("-".into(), |n| n.to_string())).collect();
    Ok(format!("{end} units {} cells {}", ran.units, cells.join(" ")))
}

// Two sums over the halves of all words, modulo a prime below 2^31, as crates/klem/src/looks.rt has them.
fn digest(words: &[u64]) -> u64 {
    let sum = |factor: u64| words.iter().flat_map(|w| [w >> 32, w & 0xFFFF_FFFF]).fold(1, |d, half| (d * factor + half) % 2_147_483_647);
    sum(65_599) * 2_147_483_648 + sum(1_000_003)
}
