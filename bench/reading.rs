// The work of crates/reading_bench in plain Rust: the same text, the same grammar and limits, the same checks on one file,
// the same canonical text. Same arguments, same output.
use std::borrow::Cow;
use std::collections::HashSet;
use std::hint::black_box;

const PATH: &[u8] = b"/nix/store/0123456789abcdfghijklmnpqrsvwxyz-bench.drv";

// The text.

fn store(n: usize) -> String {
    format!("/nix/store/{n:03}3456789abcdfghijklmnpqrsvwxyz-")
}

fn string(count: usize) -> String {
    let mut s = String::from("\"\\-");
    for i in 0..count {
        match i % 40 {
            19 => s.push_str("\\n"),
            39 => s.push_str("\\\""),
            _ => s.push((b'a' + (i % 26) as u8) as char),
        }
    }
    s.push('"');
    s
}

fn joined(rows: impl Iterator<Item = String>) -> String {
    rows.collect::<Vec<_>>().join(",")
}

fn make(size: usize) -> Vec<u8> {
    let each = (size / 192).saturating_sub(23);
    let value = string(each - each / 21);
    let inputs = joined((0..16).map(|i| format!("(\"{}input.drv\",[\"out\",\"dev\"])", store(i * 5 % 16))));
    let sources = joined((0..16).map(|i| format!("\"{}source\"", store(i * 7 % 16))));
    let arguments = joined((0..64).map(|_| value.clone()));
    let environment = joined((0..128).map(|i| format!("(\"v{:03}\",{value})", i * 37 % 128)));
    let output = store(0);
    format!(
        "Derive([(\"out\",\"{output}bench\",\"\",\"\")],[{inputs}],[{sources}],\"x86_64-linux\",\"/bin/sh\",[{arguments}],[{environment}])"
    )
    .into_bytes()
}

// The reader: each string is a slice of the text, escapes as they stand.

// What is refused; printed where `main` ends by it.
#[allow(dead_code)]
#[derive(Debug)]
enum Fault {
    Byte(usize),
    Row(usize),
    Present,
    Formed,
    Different,
    Fixed,
    Short,
}

type Text<'a> = &'a [u8];

struct Output<'a> {
    name: Text<'a>,
    path: Text<'a>,
    algorithm: Text<'a>,
    hash: Text<'a>,
}

struct Input<'a> {
    path: Text<'a>,
    names: Vec<Text<'a>>,
}

struct Variable<'a> {
    name: Text<'a>,
    value: Text<'a>,
}

struct Derivation<'a> {
    outputs: Vec<Output<'a>>,
    inputs: Vec<Input<'a>>,
    sources: Vec<Text<'a>>,
    system: Text<'a>,
    builder: Text<'a>,
    arguments: Vec<Text<'a>>,
    environment: Vec<Variable<'a>>,
}

struct Reader<'a> {
    text: Text<'a>,
    at: usize,
}

impl<'a> Reader<'a> {
    fn peek(&self, b: u8) -> bool {
        self.text.get(self.at) == Some(&b)
    }

    fn expect(&mut self, b: u8) -> Result<(), Fault> {
        if !self.peek(b) {
            return Err(Fault::Byte(self.at));
        }
        self.at += 1;
        Ok(())
    }

    fn string(&mut self) -> Result<Text<'a>, Fault> {
        self.expect(b'"')?;
        let start = self.at;
        let mut end = start;
        while let Some(&b) = self.text.get(end) {
            match b {
                b'"' => {
                    self.at = end + 1;
                    return Ok(&self.text[start..end]);
                }
                b'\\' => end += 2,
                _ => end += 1,
            }
        }
        Err(Fault::Byte(self.text.len()))
    }

    fn list<T>(&mut self, limit: usize, open: u8, row: impl Fn(&mut Self) -> Result<T, Fault>) -> Result<Vec<T>, Fault> {
        let mut rows = Vec::new();
        self.expect(b'[')?;
        if self.peek(b']') {
            self.at += 1;
            return Ok(rows);
        }
        loop {
            if self.peek(open) && rows.len() == limit {
                return Err(Fault::Row(self.at));
            }
            rows.push(row(self)?);
            if self.peek(b']') {
                self.at += 1;
                return Ok(rows);
            }
            self.expect(b',')?;
        }
    }

    fn strings(&mut self, limit: usize) -> Result<Vec<Text<'a>>, Fault> {
        self.list(limit, b'"', Self::string)
    }

    fn output(&mut self) -> Result<Output<'a>, Fault> {
        self.expect(b'(')?;
        let name = self.string()?;
        self.expect(b',')?;
        let path = self.string()?;
        self.expect(b',')?;
        let algorithm = self.string()?;
        self.expect(b',')?;
        let hash = self.string()?;
        self.expect(b')')?;
        Ok(Output { name, path, algorithm, hash })
    }

    fn input(&mut self) -> Result<Input<'a>, Fault> {
        self.expect(b'(')?;
        let path = self.string()?;
        self.expect(b',')?;
        let names = self.strings(16)?;
        self.expect(b')')?;
        Ok(Input { path, names })
    }

    fn variable(&mut self) -> Result<Variable<'a>, Fault> {
        self.expect(b'(')?;
        let name = self.string()?;
        self.expect(b',')?;
        let value = self.string()?;
        self.expect(b')')?;
        Ok(Variable { name, value })
    }

    fn derivation(&mut self) -> Result<Derivation<'a>, Fault> {
        for &b in b"Derive(" {
            self.expect(b)?;
        }
        let outputs = self.list(16, b'(', Self::output)?;
        self.expect(b',')?;
        let inputs = self.list(64, b'(', Self::input)?;
        self.expect(b',')?;
        let sources = self.strings(64)?;
        self.expect(b',')?;
        let system = self.string()?;
        self.expect(b',')?;
        let builder = self.string()?;
        self.expect(b',')?;
        let arguments = self.strings(64)?;
        self.expect(b',')?;
        let environment = self.list(128, b'(', Self::variable)?;
        self.expect(b')')?;
        if self.at < self.text.len() {
            return Err(Fault::Byte(self.at));
        }
        Ok(Derivation { outputs, inputs, sources, system, builder, arguments, environment })
    }
}

// The checks on one file.

// The bytes that a string means.
fn meant(s: Text<'_>) -> impl Iterator<Item = u8> + '_ {
    let mut bytes = s.iter();
    std::iter::from_fn(move || match *bytes.next()? {
        b'\\' => Some(match *bytes.next()? {
            b'n' => b'\n',
            b'r' => b'\r',
            b't' => b'\t',
            c => c,
        }),
        b => Some(b),
    })
}

fn meaning(s: Text<'_>) -> Cow<'_, [u8]> {
    if s.contains(&b'\\') { Cow::Owned(meant(s).collect()) } else { Cow::Borrowed(s) }
}

// By a set of the keys; with `--cfg pairs` each key is compared with those before it, as the proved crate does.
fn different<'a>(mut keys: impl Iterator<Item = Text<'a>>) -> bool {
    if cfg!(pairs) {
        let keys: Vec<Text> = keys.collect();
        return (0..keys.len()).all(|i| !keys[..i].iter().any(|k| meant(k).eq(meant(keys[i]))));
    }
    let mut seen = HashSet::new();
    keys.all(|k| seen.insert(meaning(k)))
}

fn is_name(s: Text) -> bool {
    let in_name = |b: &u8| b.is_ascii_alphanumeric() || b"+-._?=".contains(b);
    !s.is_empty() && s.len() <= 211 && s[0] != b'.' && s.iter().all(in_name)
}

fn is_store_path(s: Text) -> bool {
    let digit = |b: &u8| matches!(b, b'0'..=b'9' | b'a'..=b'z') && !b"eotu".contains(b);
    match s.strip_prefix(b"/nix/store/") {
        Some(base) if base.len() >= 33 => base[..32].iter().all(digit) && base[32] == b'-' && is_name(&base[33..]),
        _ => false,
    }
}

fn is_plain(s: Text) -> bool {
    !s.contains(&b'\\')
}

fn is_given(algorithm: Text, hash: Text) -> bool {
    let digits = match algorithm.strip_prefix(b"r:").unwrap_or(algorithm) {
        b"md5" => 32,
        b"sha1" => 40,
        b"sha256" => 64,
        b"sha512" => 128,
        _ => return false,
    };
    hash.len() == digits && hash.iter().all(|b| matches!(b, b'0'..=b'9' | b'a'..=b'f'))
}

fn formed(d: &Derivation) -> bool {
    let output = |o: &Output| {
        is_plain(o.name) && is_name(o.name) && is_plain(o.path) && is_store_path(o.path) && is_plain(o.algorithm) && is_plain(o.hash)
    };
    let input = |i: &Input| {
        is_plain(i.path) && is_store_path(i.path) && i.path.ends_with(b".drv") && i.names.iter().all(|n| is_plain(n) && is_name(n))
    };
    let source = |s: &Text| is_plain(s) && is_store_path(s);
    d.outputs.iter().all(output) && d.inputs.iter().all(input) && d.sources.iter().all(source)
}

fn keys_differ(d: &Derivation) -> bool {
    different(d.outputs.iter().map(|o| o.name))
        && different(d.inputs.iter().map(|i| i.path))
        && d.inputs.iter().all(|i| different(i.names.iter().copied()))
        && different(d.sources.iter().copied())
        && different(d.environment.iter().map(|v| v.name))
}

fn settled(d: &Derivation) -> bool {
    let fixed = matches!(&d.outputs[..], [o] if o.name == b"out" && is_given(o.algorithm, o.hash));
    fixed || d.outputs.iter().all(|o| o.algorithm.is_empty() && o.hash.is_empty())
}

fn short(path: Text, d: &Derivation) -> bool {
    let stem = path.len().saturating_sub(48);
    d.outputs.iter().all(|o| if o.name == b"out" { stem <= 211 } else { stem + 1 + o.name.len() <= 211 })
}

fn read_file<'a>(path: Text, text: Text<'a>) -> Result<Derivation<'a>, Fault> {
    let d = Reader { text, at: 0 }.derivation()?;
    if d.outputs.is_empty() || d.inputs.iter().any(|i| i.names.is_empty()) {
        return Err(Fault::Present);
    }
    if !formed(&d) {
        return Err(Fault::Formed);
    }
    if !keys_differ(&d) {
        return Err(Fault::Different);
    }
    if !settled(&d) {
        return Err(Fault::Fixed);
    }
    if !short(path, &d) {
        return Err(Fault::Short);
    }
    Ok(d)
}

// The canonical text.

fn sort_by_key<'a, T>(rows: &mut [T], key: impl Fn(&T) -> Text<'a>) {
    rows.sort_by(|a, b| meant(key(a)).cmp(meant(key(b))));
}

fn put_string(out: &mut Vec<u8>, s: Text) {
    out.push(b'"');
    for b in meant(s) {
        match b {
            b'"' => out.extend_from_slice(b"\\\""),
            b'\\' => out.extend_from_slice(b"\\\\"),
            b'\n' => out.extend_from_slice(b"\\n"),
            b'\r' => out.extend_from_slice(b"\\r"),
            b'\t' => out.extend_from_slice(b"\\t"),
            _ => out.push(b),
        }
    }
    out.push(b'"');
}

fn put_list<T>(out: &mut Vec<u8>, rows: &[T], put: impl Fn(&mut Vec<u8>, &T)) {
    out.push(b'[');
    for (i, row) in rows.iter().enumerate() {
        if i > 0 {
            out.push(b',');
        }
        put(out, row);
    }
    out.push(b']');
}

fn put_columns(out: &mut Vec<u8>, columns: &[Text]) {
    for (i, s) in columns.iter().enumerate() {
        out.push(if i == 0 { b'(' } else { b',' });
        put_string(out, s);
    }
    out.push(b')');
}

fn write_canonical(mut d: Derivation, out: &mut Vec<u8>) {
    sort_by_key(&mut d.outputs, |o| o.name);
    sort_by_key(&mut d.inputs, |i| i.path);
    for i in &mut d.inputs {
        sort_by_key(&mut i.names, |n| n);
    }
    sort_by_key(&mut d.sources, |s| s);
    sort_by_key(&mut d.environment, |v| v.name);

    let one = |out: &mut Vec<u8>, s: &Text| put_string(out, s);
    out.extend_from_slice(b"Derive(");
    put_list(out, &d.outputs, |out, o| put_columns(out, &[o.name, o.path, o.algorithm, o.hash]));
    out.push(b',');
    put_list(out, &d.inputs, |out, i| {
        out.push(b'(');
        put_string(out, i.path);
        out.push(b',');
        put_list(out, &i.names, one);
        out.push(b')');
    });
    out.push(b',');
    put_list(out, &d.sources, one);
    out.push(b',');
    put_string(out, d.system);
    out.push(b',');
    put_string(out, d.builder);
    out.push(b',');
    put_list(out, &d.arguments, one);
    out.push(b',');
    put_list(out, &d.environment, |out, v| put_columns(out, &[v.name, v.value]));
    out.push(b')');
}

fn main() -> Result<(), Fault> {
    let args: Vec<String> = std::env::args().collect();
    let number = |at: usize, without: usize| args.get(at).map_or(without, |a| a.parse().expect("a number"));
    let text = make(number(1, 64).min(255) * 1024);
    let times = number(3, 1).max(1);
    let mut count = 0;
    if args.get(2).is_some_and(|a| a == "rewrite") {
        let mut out = Vec::with_capacity(2 * text.len() + 64);
        for _ in 0..times {
            out.clear();
            write_canonical(read_file(PATH, black_box(&text))?, &mut out);
            count = black_box(&out).len();
        }
    } else {
        for _ in 0..times {
            count = black_box(read_file(PATH, black_box(&text))?).environment.len();
        }
    }
    println!("{} {}", text.len(), count);
    Ok(())
}
