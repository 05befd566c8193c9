// A plain program for the ALLOC messages of load_http: hash maps, a list of gaps, a journal, and nothing else of a desk.
// It tells what a served desk costs beside a program that promises nothing.
// usage: plain_http PORT CONNECTIONS    on 127.0.0.1
use std::collections::HashMap;
use std::io::{Read, Write};
use std::net::{TcpListener, TcpStream};
use std::rc::Rc;

struct Reply {
    words: &'static str,
    classes: String,
    extent: String,
}

struct DataSet {
    owner: String,
    extents: Vec<(String, u32, u32)>,
    secondary: u32,
}

struct Entry {
    job: String,
    number: u32,
    line: String,
    reply: Rc<Reply>,
}

struct Desk {
    log: HashMap<(String, u32), (Rc<Reply>, usize)>,
    catalog: HashMap<String, DataSet>,
    gaps: Vec<(u32, u32)>,
    journal: Vec<Entry>,
}

impl Desk {
    fn alloc(&mut self, job: &str, number: u32, name: &str, primary: u32, secondary: u32) -> (Rc<Reply>, usize) {
        let key = (job.to_string(), number);
        if let Some((reply, first)) = self.log.get(&key) {
            return (reply.clone(), *first);
        }
        let reply = Rc::new(self.grant(job, name, primary, secondary));
        let line = format!("ALLOC {name} SPACE=(TRK,({primary},{secondary}))");
        self.journal.push(Entry { job: job.to_string(), number, line, reply: reply.clone() });
        self.log.insert(key, (reply.clone(), self.journal.len()));
        (reply, self.journal.len())
    }

    fn grant(&mut self, job: &str, name: &str, primary: u32, secondary: u32) -> Reply {
        let gap = self.gaps.iter_mut().find(|gap| gap.1 >= primary);
        let (Some(gap), false) = (gap, self.catalog.contains_key(name)) else {
            return Reply { words: "R00 REFUSED", classes: String::new(), extent: String::new() };
        };
        let start = gap.0;
        *gap = (start + primary, gap.1 - primary);
        let extents = vec![("V00001".to_string(), start, primary)];
        self.catalog.insert(name.to_string(), DataSet { owner: job.to_string(), extents, secondary });
        Reply { words: "A00 GRANTED", classes: "CLASS - SC1 - SG1".to_string(), extent: format!("EXTENT V00001 {start} {primary}") }
    }

    // The bytes that it holds, so that nothing of it is left out as unused.
    fn size(&self) -> usize {
        let entry = |e: &Entry| e.job.len() + e.number as usize + e.line.len() + e.reply.words.len();
        let set = |s: &DataSet| s.owner.len() + s.extents.len() + s.secondary as usize;
        self.journal.iter().map(entry).sum::<usize>() + self.catalog.values().map(set).sum::<usize>()
    }
}

fn is_name(text: &str) -> bool {
    (1..=8).contains(&text.len()) && text.bytes().all(|byte| byte.is_ascii_uppercase() || byte.is_ascii_digit())
}

fn is_data_set_name(text: &str) -> bool {
    text.len() <= 44 && text.split('.').all(is_name)
}

// The two amounts of a body such as {"SPACE":"(TRK,(1,1))"}.
fn amounts(body: &str) -> Option<(u32, u32)> {
    let (primary, secondary) = body.strip_prefix("{\"SPACE\":\"(TRK,(")?.strip_suffix("))\"}")?.split_once(',')?;
    Some((primary.parse().ok()?, secondary.parse().ok()?))
}

// The body of the answer to a message; nothing where the message is no ALLOC.
fn answer(desk: &mut Desk, path: &str, body: &str) -> Option<String> {
    let mut parts = path.strip_prefix("/job/")?.split('/');
    let job = parts.next()?.to_ascii_uppercase();
    let number = parts.next()?.parse().ok()?;
    let verb = parts.next()?;
    let name = parts.next()?.to_ascii_uppercase();
    if verb != "alloc" || !is_name(&job) || !is_data_set_name(&name) {
        return None;
    }
    let (primary, secondary) = amounts(body)?;
    let (reply, place) = desk.alloc(&job, number, &name, primary, secondary);
    let Reply { words, classes, extent } = &*reply;
    let code = &words[..3];
    Some(format!("{{\"code\":\"{code}\",\"first\":{place},\"lines\":[\"{words}\",\"{classes}\",\"{extent}\"],\"place\":{place}}}"))
}

// Answers the message at the front of the bytes, and says how many bytes it has; nothing where it isn't there whole.
fn answer_one(desk: &mut Desk, bytes: &[u8], out: &mut Vec<u8>) -> Option<usize> {
    let end = bytes.windows(4).position(|four| four == b"\r\n\r\n")?;
    let head = std::str::from_utf8(&bytes[..end]).ok()?;
    let mut lines = head.split("\r\n");
    let path = lines.next()?.split(' ').nth(1)?;
    let length = lines.find_map(|line| {
        let (name, value) = line.split_once(':')?;
        if name.eq_ignore_ascii_case("content-length") { value.trim().parse::<usize>().ok() } else { None }
    })?;
    let body = std::str::from_utf8(bytes.get(end + 4..end + 4 + length)?).ok()?;
    let text = answer(desk, path, body).unwrap_or_default();
    let length_of_text = text.len();
    write!(out, "HTTP/1.1 200 OK\r\nContent-Type: application/json\r\nContent-Length: {length_of_text}\r\nConnection: keep-alive\r\n\r\n{text}").ok()?;
    Some(end + 4 + length)
}

fn serve(desk: &mut Desk, link: &mut TcpStream) -> std::io::Result<()> {
    let (mut buffer, mut out, mut piece) = (Vec::new(), Vec::new(), [0; 65_536]);
    loop {
        let count = link.read(&mut piece)?;
        if count == 0 {
            return Ok(());
        }
        buffer.extend_from_slice(&piece[..count]);
        out.clear();
        let mut at = 0;
        while let Some(count) = answer_one(desk, &buffer[at..], &mut out) {
            at += count;
        }
        buffer.drain(..at);
        link.write_all(&out)?;
    }
}

fn main() -> std::io::Result<()> {
    let words: Vec<usize> = std::env::args().skip(1).filter_map(|word| word.parse().ok()).collect();
    let listener = TcpListener::bind(("127.0.0.1", words[0] as u16))?;
    let mut desk = Desk { log: HashMap::new(), catalog: HashMap::new(), gaps: vec![(0, 982_800)], journal: Vec::new() };
    for _ in 0..words[1] {
        let (mut link, _) = listener.accept()?;
        link.set_nodelay(true)?;
        serve(&mut desk, &mut link)?;
    }
    println!("END {} {}", desk.journal.len(), desk.size());
    std::process::exit(0)
}
