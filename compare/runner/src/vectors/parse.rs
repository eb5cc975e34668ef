//! The format of vectors/README.md: cases, each with a sample and calls, each call with its answer.

use crate::answers::{GraphWritten, ListWritten, Outcome, PathWritten, Slice};
use model::{GraphMaxima, Sample, SearchMaxima, Told};

pub struct Case {
    pub name: String,
    pub sample: Sample,
    pub calls: Vec<Call>,
}

pub struct Call {
    /// Of the file, from 1.
    pub line: usize,
    pub kind: Kind,
}

pub enum Kind {
    Graph {
        maxima: GraphMaxima,
        short: Vec<Slice>,
        expected: Outcome<GraphWritten>,
    },
    List {
        paths: u32,
        threshold: i32,
        recover: bool,
        graph: GraphMaxima,
        search: SearchMaxima,
        column: Column,
        short: Vec<Slice>,
        expected: Outcome<ListWritten>,
    },
    Origin {
        origin: (u32, u32),
        expected: Outcome<Vec<u8>>,
    },
    Lengths {
        k: u32,
        paths: u32,
        graph: GraphMaxima,
        search: SearchMaxima,
        expected: Outcome<Told>,
    },
}

pub enum Column {
    /// The first places of log10.
    Log10(usize),
    Bits(Vec<f64>),
}

type Parsed<T> = Result<T, String>;

struct Lines<'a> {
    lines: Vec<&'a [u8]>,
    next: usize,
}

impl<'a> Lines<'a> {
    fn peek(&self) -> Option<&'a [u8]> {
        self.lines.get(self.next).copied()
    }

    fn take(&mut self) -> Option<&'a [u8]> {
        let line = self.peek()?;
        self.next += 1;
        Some(line)
    }

    /// The next line, where it starts so; without that start.
    fn take_after(&mut self, start: &str) -> Option<&'a [u8]> {
        let rest = self.peek()?.strip_prefix(start.as_bytes())?;
        self.next += 1;
        Some(rest)
    }
}

/// All cases of a file. Calls outside of any case make one of their own.
pub fn parse(text: &[u8]) -> Parsed<Vec<Case>> {
    let mut lines = Lines { lines: text.split(|&b| b == b'\n').collect(), next: 0 };
    let mut cases: Vec<Case> = Vec::new();
    while let Some(line) = lines.peek() {
        let at = lines.next + 1;
        let found = if line.is_empty() {
            lines.next += 1;
            Ok(None)
        } else if let Some(name) = lines.take_after("case ") {
            case(&mut lines, text_of(name)).map(Some)
        } else {
            loose_call(&mut lines).map(Some)
        };
        cases.extend(found.map_err(|why| format!("line {at}: {why} (up to line {})", lines.next))?);
    }
    Ok(cases)
}

fn loose_call(lines: &mut Lines) -> Parsed<Case> {
    let line = lines.next + 1;
    let kind = call(lines, &mut Vec::new())?.ok_or("not a call")?;
    Ok(Case { name: "outside".into(), sample: Sample::default(), calls: vec![Call { line, kind }] })
}

fn case(lines: &mut Lines, name: String) -> Parsed<Case> {
    let mut case = Case { name, sample: Sample::default(), calls: Vec::new() };
    let mut rows_before = Vec::new();
    loop {
        let at = lines.next + 1;
        if lines.take_after("end").is_some() {
            return Ok(case);
        }
        if sample_line(lines, &mut case.sample)? {
            continue;
        }
        if let Some(kind) = call(lines, &mut rows_before)? {
            case.calls.push(Call { line: at, kind });
        }
    }
}

/// Takes a line that says something of the sample.
fn sample_line(lines: &mut Lines, s: &mut Sample) -> Parsed<bool> {
    if let Some(rest) = lines.take_after("k ") {
        s.k = number(&text_of(rest))?;
    } else if let Some(rest) = lines.take_after("minq ") {
        s.quality = number(&text_of(rest))?;
    } else if let Some(rest) = lines.take_after("ref ") {
        s.reference = if rest == b"-" { Vec::new() } else { rest.to_vec() };
    } else if let Some(rest) = lines.take_after("refx ") {
        s.reference = hex(rest)?;
    } else if let Some(rest) = lines.take_after("read ") {
        let space = rest.iter().position(|&b| b == b' ').ok_or("a read without qualities")?;
        let (bases, qualities) = (&rest[..space], &rest[space + 1..]);
        match qualities {
            [b'=', c] => s.push(bases, &vec![c - 33; bases.len()]),
            _ => s.push(bases, &qualities.iter().map(|q| q - 33).collect::<Vec<u8>>()),
        }
    } else if let Some(rest) = lines.take_after("readx ") {
        let mut parts = rest.split(|&b| b == b' ');
        let bases = hex(parts.next().ok_or("no bases")?)?;
        let qualities = hex(parts.next().ok_or("no qualities")?)?;
        s.push(&bases, &qualities);
    } else if let Some(rest) = lines.take_after("rawbases ") {
        s.bases = hex(rest)?;
    } else if let Some(rest) = lines.take_after("rawquals ") {
        s.qualities = hex(rest)?;
    } else if let Some(rest) = lines.take_after("rawends") {
        s.ends = text_of(rest).split_whitespace().map(number).collect::<Parsed<_>>()?;
    } else {
        return Ok(false);
    }
    Ok(true)
}

/// Takes a call and its answer, or a note. `rows_before` are those of the list call before.
fn call(lines: &mut Lines, rows_before: &mut Vec<PathWritten>) -> Parsed<Option<Kind>> {
    let line = text_of(lines.take().ok_or("the file ends within a case")?);
    let words: Vec<&str> = line.split(' ').collect();
    match words[0] {
        "note" => Ok(None),
        "graph" => {
            let settings = Settings::of(&words[1..]);
            let expected = graph_answer(lines)?;
            Ok(Some(Kind::Graph { maxima: settings.graph()?, short: settings.short()?, expected }))
        }
        "list" => {
            let column = words.iter().position(|&w| w == "column").ok_or("no column")?;
            let settings = Settings::of(&words[1..column]);
            let expected = list_answer(lines, rows_before)?;
            Ok(Some(Kind::List {
                paths: settings.number("paths")?,
                threshold: settings.number("threshold")?,
                recover: settings.number::<u32>("recover")? == 1,
                graph: settings.graph()?,
                search: settings.search()?,
                column: column_of(&words[column + 1..])?,
                short: settings.short()?,
                expected,
            }))
        }
        "origin" => {
            let expected = match &words[3..] {
                [">", "refused", n] => Err(number(n)?),
                [">", bytes] => Ok(hex(bytes.as_bytes())?),
                _ => return Err(format!("answer of an origin: {line}")),
            };
            Ok(Some(Kind::Origin { origin: (number(words[1])?, number(words[2])?), expected }))
        }
        "lengths" => {
            let answer = words.iter().position(|&w| w == ">").ok_or("no answer")?;
            let settings = Settings::of(&words[1..answer]);
            let expected = match &words[answer + 1..] {
                ["refused", n] => Err(number(n)?),
                told => Ok(told_of(&Settings::of(told))?),
            };
            Ok(Some(Kind::Lengths {
                k: settings.number("k")?,
                paths: settings.number("paths")?,
                graph: settings.graph()?,
                search: settings.search()?,
                expected,
            }))
        }
        _ => Err(format!("unknown line: {line}")),
    }
}

/// Rows are told in the file, lengths of slices by the call.
fn told_of(told: &Settings) -> Parsed<Told> {
    Ok(Told {
        edges: 6 * told.number::<usize>("edges")?,
        nodes: 4 * told.number::<usize>("nodes")?,
        paths: told.number("paths")?,
        bases: told.number("bases")?,
        origins: told.number("origins")?,
    })
}

fn graph_answer(lines: &mut Lines) -> Parsed<Outcome<GraphWritten>> {
    let answer = text_of(lines.take_after("> ").ok_or("no answer")?);
    let words: Vec<&str> = answer.split(' ').collect();
    if words[0] == "refused" {
        return Ok(Err(number(words[1])?));
    }
    let settings = Settings::of(&words);
    let mut written = GraphWritten { edges: Vec::new(), nodes: Vec::new() };
    while let Some(row) = lines.take_after("e ") {
        written.edges.push(row_of(row)?);
    }
    while let Some(row) = lines.take_after("n ") {
        written.nodes.push(row_of(row)?);
    }
    if (written.edges.len(), written.nodes.len()) != (settings.number("edges")?, settings.number("nodes")?) {
        return Err("rows are missing".into());
    }
    Ok(Ok(written))
}

fn list_answer(lines: &mut Lines, rows_before: &mut Vec<PathWritten>) -> Parsed<Outcome<ListWritten>> {
    let answer = text_of(lines.take_after("> ").ok_or("no answer")?);
    let words: Vec<&str> = answer.split(' ').collect();
    if words[0] == "refused" {
        return Ok(Err(number(words[1])?));
    }
    let settings = Settings::of(&words);
    if lines.take_after("= as the run before").is_none() {
        rows_before.clear();
        while let Some(row) = lines.take_after("p ") {
            rows_before.push(path_row(&text_of(row), lines)?);
        }
    }
    if rows_before.len() != settings.number::<usize>("paths")? {
        return Err("rows are missing".into());
    }
    Ok(Ok(ListWritten { rows: rows_before.clone(), pushes: settings.number("pushes")?, longest: settings.number("longest")? }))
}

/// `scorebits closing edges flag bases`, and the line of its origins.
fn path_row(row: &str, lines: &mut Lines) -> Parsed<PathWritten> {
    let words: Vec<&str> = row.split(' ').collect();
    let &[score, closing, edges, flag, bases] = &words[..] else { return Err(format!("a path row: {row}")) };
    let mut origins = Vec::new();
    for run in text_of(lines.take_after("o ").ok_or("no origins")?).split(' ').filter(|w| *w != "-") {
        let (sequence, rest) = run.split_once(':').ok_or("an origin")?;
        let (place, count) = rest.split_once('+').ok_or("an origin")?;
        let (sequence, place, count): (u32, u32, u32) = (number(sequence)?, number(place)?, number(count)?);
        origins.extend((0..count).map(|i| (sequence, place + i)));
    }
    if origins.len() != number::<usize>(edges)? {
        return Err("origins are missing".into());
    }
    let score = u64::from_str_radix(score, 16).map_err(|e| e.to_string())?;
    Ok(PathWritten { score, closing: number(closing)?, is_ref: flag == "1", bases: bases.as_bytes().to_vec(), origins })
}

fn column_of(words: &[&str]) -> Parsed<Column> {
    match words {
        ["log10", places] => Ok(Column::Log10(number(places)?)),
        ["bits", entries @ ..] => {
            let entry = |e: &&str| u64::from_str_radix(e, 16).map(f64::from_bits).map_err(|e| e.to_string());
            Ok(Column::Bits(entries.iter().filter(|e| !e.is_empty()).map(entry).collect::<Parsed<_>>()?))
        }
        _ => Err("a column".into()),
    }
}

/// `name value` pairs of a line.
struct Settings<'a>(Vec<(&'a str, &'a str)>);

impl<'a> Settings<'a> {
    fn of(words: &[&'a str]) -> Self {
        Self(words.chunks(2).filter(|pair| pair.len() == 2).map(|pair| (pair[0], pair[1])).collect())
    }

    fn get(&self, name: &str) -> Option<&'a str> {
        self.0.iter().find(|pair| pair.0 == name).map(|pair| pair.1)
    }

    fn number<T: std::str::FromStr>(&self, name: &str) -> Parsed<T> {
        number(self.get(name).ok_or_else(|| format!("no {name}"))?)
    }

    fn graph(&self) -> Parsed<GraphMaxima> {
        Ok(GraphMaxima { vertices: self.number("vertices")?, edges: self.number("edges")?, nodes: self.number("nodes")? })
    }

    fn search(&self) -> Parsed<SearchMaxima> {
        Ok(SearchMaxima { path_edges: self.number("path_edges")?, active: self.number("active")?, pushes: self.number("pushes")? })
    }

    /// The slices that are to be lent one short, each in a call of its own.
    fn short(&self) -> Parsed<Vec<Slice>> {
        Ok(match self.get("short") {
            None => Vec::new(),
            Some("edges") => vec![Slice::Edges],
            Some("nodes") => vec![Slice::Nodes],
            Some("paths") => vec![Slice::Paths],
            Some("bases") => vec![Slice::Bases],
            Some("origins") => vec![Slice::Sequences, Slice::Places],
            Some("workspace") => (0..16).map(Slice::Workspace).collect(),
            Some(other) => return Err(format!("short {other}")),
        })
    }
}

fn row_of<const N: usize>(row: &[u8]) -> Parsed<[u32; N]> {
    let numbers: Vec<u32> = text_of(row).split(' ').map(number).collect::<Parsed<_>>()?;
    numbers.try_into().map_err(|_| "a row of another width".into())
}

fn number<T: std::str::FromStr>(text: &str) -> Parsed<T> {
    text.parse().map_err(|_| format!("not a number here: {text}"))
}

fn text_of(bytes: &[u8]) -> String {
    String::from_utf8_lossy(bytes).into_owned()
}

/// Bytes in hexadecimal, `-` none.
fn hex(text: &[u8]) -> Parsed<Vec<u8>> {
    if text == b"-" {
        return Ok(Vec::new());
    }
    let digit = |b: u8| (b as char).to_digit(16).map(|d| d as u8).ok_or_else(|| format!("not hexadecimal: {}", b as char));
    text.chunks(2).map(|pair| if pair.len() == 2 { Ok(16 * digit(pair[0])? + digit(pair[1])?) } else { Err("half a byte".into()) }).collect()
}
