//! `pppd replay` in plain Rust: one link, LCP, default settings. `bench/ratio.py` measures the program against it,
//! built by `rustc -O`. Left out are packets that these two ends never send: of codes 7 to 11 and unknown ones. So are
//! settings but `version = 1`: any others are refused as no TOML. Nothing comes of the protocols that aren't configured.

use Action::{Again, Answer, InitRestart, Refuse, Request, Terminate, TerminateAck, ZeroRestart};
use State::{AckRcvd, AckSent, Closed, Closing, Initial, Opened, ReqSent, Starting, Stopped, Stopping};
use std::collections::VecDeque;
use std::io::{Read, Write};
use std::process::ExitCode;

const USAGE: &str = "usage: pppd replay, feed, show, vectors, soak SEED COUNT, serve TURNS, pair TURNS\n";
const MOST_OCTETS: usize = 1 << 20;
const MOST_STEPS: u32 = 100_000;
const ROOM: usize = 1024;
const WIDEST: u64 = 255;
const MAX_FAILURE: u8 = 5;
const MRU: u8 = 1;
const MAGIC: u8 = 5;
const FLAG: u8 = 0x7e;
const ESCAPE: u8 = 0x7d;
const MAP: u32 = 0xffff_ffff;
/// Address, control and LCP's number.
const HEADER: [u8; 4] = [0xff, 0x03, 0xc0, 0x21];

#[derive(Clone, Copy, PartialEq)]
enum State { Initial, Starting, Closed, Stopped, Closing, Stopping, ReqSent, AckRcvd, AckSent, Opened }

const NAMES: [&str; 10] =
    ["Initial", "Starting", "Closed", "Stopped", "Closing", "Stopping", "Req-Sent", "Ack-Rcvd", "Ack-Sent", "Opened"];

#[derive(Clone, Copy, PartialEq)]
enum Input { Up, Down, Open, Close, TimeoutMore, TimeoutLast, Good, Bad, Ack, Nak, Terminate, TerminateAck }

#[derive(Clone, Copy, PartialEq)]
enum Action { InitRestart, ZeroRestart, Request, Again, Answer, Refuse, Terminate, TerminateAck }

/// The event table (RFC 1661 section 4.1) without the signals to other layers, which nobody hears here.
fn cell(input: Input, state: State) -> (&'static [Action], State) {
    match (input, state) {
        (Input::Up, Initial) | (Input::Close, Stopped) | (Input::TerminateAck, Closing) => (&[], Closed),
        (Input::Up, Starting) | (Input::Open, Closed) => (&[InitRestart, Request], ReqSent),
        (Input::Down, Closed | Closing) | (Input::Close, Starting) => (&[], Initial),
        (Input::Down, Stopped | Stopping | ReqSent | AckRcvd | AckSent | Opened) => (&[], Starting),
        (Input::Open, Initial) => (&[], Starting),
        (Input::Open, Closing) => (&[], Stopping),
        (Input::Close, Stopping) => (&[], Closing),
        (Input::Close, ReqSent | AckRcvd | AckSent | Opened) => (&[InitRestart, Terminate], Closing),
        (Input::TimeoutMore, Closing | Stopping) => (&[Terminate], state),
        (Input::TimeoutMore, ReqSent | AckSent) => (&[Again], state),
        (Input::TimeoutMore, AckRcvd) => (&[Request], ReqSent),
        (Input::TimeoutLast, Closing) => (&[], Closed),
        (Input::TimeoutLast, Stopping | ReqSent | AckRcvd | AckSent) => (&[], Stopped),
        (Input::Good | Input::Bad | Input::Ack | Input::Nak | Input::Terminate, Closed) => (&[TerminateAck], Closed),
        (Input::Ack | Input::Nak | Input::Terminate, Stopped) => (&[TerminateAck], Stopped),
        (Input::Good, Stopped) => (&[InitRestart, Request, Answer], AckSent),
        (Input::Good, ReqSent | AckSent) => (&[Answer], AckSent),
        (Input::Good, AckRcvd) => (&[Answer], Opened),
        (Input::Good, Opened) => (&[Request, Answer], AckSent),
        (Input::Bad, Stopped) => (&[InitRestart, Request, Refuse], ReqSent),
        (Input::Bad, ReqSent | AckSent) => (&[Refuse], ReqSent),
        (Input::Bad, AckRcvd) => (&[Refuse], AckRcvd),
        (Input::Bad, Opened) => (&[Request, Refuse], ReqSent),
        (Input::Ack, ReqSent) => (&[InitRestart], AckRcvd),
        (Input::Ack, AckSent) => (&[InitRestart], Opened),
        (Input::Ack | Input::Nak, AckRcvd | Opened) | (Input::TerminateAck, Opened) => (&[Request], ReqSent),
        (Input::Nak, ReqSent | AckSent) => (&[InitRestart, Request], state),
        (Input::Terminate, Closing | Stopping) => (&[TerminateAck], state),
        (Input::Terminate, ReqSent | AckRcvd | AckSent) => (&[TerminateAck], ReqSent),
        (Input::Terminate, Opened) => (&[ZeroRestart, TerminateAck], Stopping),
        (Input::TerminateAck, Stopping) => (&[], Stopped),
        (Input::TerminateAck, AckRcvd) => (&[], ReqSent),
        _ => (&[], state),
    }
}

/// The options of a list, each whole.
fn options(mut list: &[u8]) -> impl Iterator<Item = &[u8]> {
    std::iter::from_fn(move || {
        let (option, rest) = list.split_at_checked(usize::from(*list.get(1)?))?;
        list = rest;
        (option.len() >= 2).then_some(option)
    })
}

fn is_list(octets: &[u8]) -> bool {
    options(octets).map(<[u8]>::len).sum::<usize>() == octets.len()
}

fn find(list: &[u8], kind: u8) -> Option<&[u8]> {
    options(list).find(|option| option[0] == kind)
}

fn magic_option(magic: u32) -> Vec<u8> {
    [&[MAGIC, 6], &magic.to_be_bytes()[..]].concat()
}

/// The Magic-Number of an option, or 0.
fn magic_in(option: Option<&[u8]>) -> u32 {
    option.and_then(|option| option[2..].try_into().ok()).map_or(0, u32::from_be_bytes)
}

/// A Magic-Number from a word that is neither 0 nor the one to avoid.
fn pick(word: u64, avoid: u32) -> u32 {
    (0..3).map(|i| (word as u32).wrapping_add(i)).find(|magic| *magic != 0 && *magic != avoid).unwrap_or(0)
}

enum Verdict { Good, Bad(Vec<u8>), Unknown }

fn judge(own: &[u8], option: &[u8], word: u64) -> Verdict {
    let own = magic_in(find(own, MAGIC));
    match *option {
        [MRU, _, high, low] if u16::from_be_bytes([high, low]) >= 128 => Verdict::Good,
        [MRU, _, _, _] => Verdict::Bad(vec![MRU, 4, 0, 128]),
        [MRU, ..] => Verdict::Bad(vec![MRU, 4, 5, 220]),
        [MAGIC, ..] => match magic_in(Some(option)) {
            magic if magic != 0 && magic != own => Verdict::Good,
            _ => Verdict::Bad(magic_option(pick(word, own))),
        },
        _ => Verdict::Unknown,
    }
}

/// What a Configure-Request is, and the code and the options of what refuses it.
fn judge_request(own: &[u8], naks: u8, theirs: &[u8], word: u64) -> (Input, u8, Vec<u8>) {
    let (mut rejected, mut bad, mut better) = (Vec::new(), Vec::new(), Vec::new());
    let mut seen = [false; 256];
    for option in options(theirs) {
        let is_first = !std::mem::replace(&mut seen[usize::from(option[0])], true);
        match judge(own, option, word) {
            Verdict::Good if is_first => {}
            Verdict::Bad(other) if is_first && other != option => {
                bad.extend_from_slice(option);
                better.extend_from_slice(&other);
            }
            _ => rejected.extend_from_slice(option),
        }
    }
    match (rejected.is_empty(), bad.is_empty()) {
        (true, true) => (Input::Good, 2, Vec::new()),
        (true, false) if naks < MAX_FAILURE => (Input::Bad, 3, better),
        (true, false) => (Input::Bad, 4, bad),
        (false, _) => (Input::Bad, 4, rejected),
    }
}

/// The own list after a Configure-Nak.
fn after_nak(own: &[u8], nak: &[u8], word: u64) -> Vec<u8> {
    let adapt = |option: &[u8]| match (option[0], find(nak, option[0])) {
        (MRU, Some(&[_, _, high, low])) if (128..=8192).contains(&u16::from_be_bytes([high, low])) => {
            vec![MRU, 4, high, low]
        }
        (MAGIC, Some(other)) if other.len() == 6 => match (magic_in(Some(other)), magic_in(Some(option))) {
            (magic, old) if magic == 0 || magic == old => magic_option(pick(word, old)),
            _ => other.to_vec(),
        },
        _ => option.to_vec(),
    };
    options(own).flat_map(adapt).collect()
}

/// The own list after a Configure-Reject.
fn after_reject(own: &[u8], reject: &[u8]) -> Vec<u8> {
    options(own).filter(|option| find(reject, option[0]).is_none()).flatten().copied().collect()
}

fn is_sublist(part: &[u8], list: &[u8]) -> bool {
    let mut left = options(list);
    options(part).all(|option| left.any(|own| own == option))
}

/// What an octet does to the check sequence (RFC 1662 appendix C.2).
const TABLE: [u16; 256] = {
    let mut table = [0; 256];
    let mut octet = 0;
    while octet < 256 {
        let (mut value, mut bit) = (octet as u16, 0);
        while bit < 8 {
            value = if value & 1 == 1 { value >> 1 ^ 0x8408 } else { value >> 1 };
            bit += 1;
        }
        table[octet] = value;
        octet += 1;
    }
    table
};

fn next_check(check: u16, octet: u8) -> u16 {
    check >> 8 ^ TABLE[usize::from(check as u8 ^ octet)]
}

/// Puts an octet at the end of a frame, behind an escape if it needs one.
fn put_octet(frame: &mut Vec<u8>, octet: u8) {
    if octet == FLAG || octet == ESCAPE || (octet < 0x20 && MAP >> octet & 1 == 1) {
        frame.push(ESCAPE);
        frame.push(octet ^ 0x20);
    } else {
        frame.push(octet);
    }
}

/// The frame of a header and a packet (RFC 1662 section 3.1).
fn write_frame(plain: &[u8]) -> Vec<u8> {
    let mut frame = Vec::with_capacity(2 * plain.len() + 6);
    let mut check = 0xffff;
    frame.push(FLAG);
    for octet in plain {
        check = next_check(check, *octet);
        put_octet(&mut frame, *octet);
    }
    for octet in (!check).to_le_bytes() {
        put_octet(&mut frame, octet);
    }
    frame.push(FLAG);
    frame
}

/// The octets between two flags, escapes undone, if they end with their check sequence.
fn read_frame(frame: &[u8]) -> Option<Vec<u8>> {
    let mut plain = Vec::with_capacity(frame.len());
    let mut check = 0xffff;
    let mut is_escaped = false;
    for octet in frame.strip_prefix(&[FLAG])?.strip_suffix(&[FLAG])? {
        if *octet == ESCAPE && !is_escaped {
            is_escaped = true;
            continue;
        }
        let octet = if is_escaped { *octet ^ 0x20 } else { *octet };
        is_escaped = false;
        check = next_check(check, octet);
        plain.push(octet);
    }
    (!is_escaped && check == 0xf0b8).then_some(plain)
}

/// The code, the Identifier and the data of the packet behind a header and before a check sequence.
fn read_packet(plain: &[u8]) -> Option<(u8, u8, &[u8])> {
    let [packet @ .., _, _] = plain.strip_prefix(&HEADER)? else { return None };
    let [code, id, high, low, ..] = *packet else { return None };
    let data = packet.get(4..usize::from(u16::from_be_bytes([high, low])))?;
    (code > 4 || is_list(data)).then_some((code, id, data))
}

/// What kind of packet a frame carries: an answer is one to a request.
#[derive(PartialEq)]
enum Kind { Request, Answer, Other }

/// A frame under way. A request's mark is its ordinal, an answer's that of its request, any other's is 0.
struct Frame { mark: u64, kind: Kind, octets: Vec<u8> }

type Queue = VecDeque<Frame>;

/// Puts the frame of a packet at the end of a queue, or loses it where that is full.
fn send(queue: &mut Queue, mark: u64, code: u8, id: u8, data: &[u8]) {
    if queue.len() < ROOM {
        let kind = match code { 1 => Kind::Request, 2..=4 => Kind::Answer, _ => Kind::Other };
        let plain = [&HEADER[..], &[code, id, 0, 4 + data.len() as u8], data].concat();
        queue.push_back(Frame { mark, kind, octets: write_frame(&plain) });
    }
}

/// What a row may need of the packet that came.
#[derive(Default)]
struct Packet<'a> { id: u8, mark: u64, theirs: &'a [u8], refusal: (u8, Vec<u8>), adapted: Option<Vec<u8>> }

struct End {
    state: State,
    restart: u8,
    naks: u8,
    next_id: u8,
    second_id: u8,
    sent: u64,
    own: Vec<u8>,
    peer: Vec<u8>,
    against: Vec<u8>,
}

impl End {
    fn new() -> End {
        let (own, peer, against) = (magic_option(pick(0, 0)), Vec::new(), Vec::new());
        End { state: Initial, restart: 0, naks: 0, next_id: 1, second_id: 1, sent: 0, own, peer, against }
    }

    fn timeout(&mut self, word: u64, queue: &mut Queue) {
        let input = if self.restart > 0 { Input::TimeoutMore } else { Input::TimeoutLast };
        self.row(input, Packet::default(), word, queue);
    }

    fn take(&mut self, frame: &Frame, word: u64, queue: &mut Queue) {
        let Some(plain) = read_frame(&frame.octets) else { return };
        let Some((code, id, theirs)) = read_packet(&plain) else { return };
        let mut packet = Packet { id, mark: frame.mark, theirs, ..Packet::default() };
        let is_idle = matches!(self.state, Closed | Stopped);
        let is_last = is_idle || id == self.next_id.wrapping_sub(1);
        let input = match code {
            1 => {
                let first = (self.state == Stopped).then(|| magic_option(pick(word, 0)));
                let (input, code, list) = judge_request(first.as_ref().unwrap_or(&self.own), self.naks, theirs, word);
                packet.refusal = (code, list);
                input
            }
            2 if is_idle || (is_last && theirs == self.own) => Input::Ack,
            3 if is_last && !theirs.is_empty() => {
                packet.adapted = Some(after_nak(&self.own, theirs, word));
                Input::Nak
            }
            4 if is_last && !theirs.is_empty() && (is_idle || is_sublist(theirs, &self.own)) => {
                packet.adapted = Some(after_reject(&self.own, theirs));
                Input::Nak
            }
            5 => Input::Terminate,
            6 => Input::TerminateAck,
            _ => return,
        };
        self.row(input, packet, word, queue);
    }

    fn row(&mut self, input: Input, packet: Packet, word: u64, queue: &mut Queue) {
        let (actions, next) = cell(input, self.state);
        if input == Input::Up && matches!(self.state, Initial | Starting) {
            self.naks = 0;
        }
        for action in actions {
            match action {
                InitRestart => self.restart = if actions.contains(&Terminate) { 2 } else { 10 },
                ZeroRestart => self.restart = 0,
                Request => {
                    if matches!(self.state, Starting | Closed | Stopped) {
                        self.own = magic_option(pick(word, 0));
                    } else if let Some(list) = &packet.adapted {
                        self.own.clone_from(list);
                    }
                    self.next_id = self.next_id.wrapping_add(1);
                    self.sent += 1;
                    self.send_request(queue);
                }
                Again => self.send_request(queue),
                Answer => {
                    self.naks = 0;
                    self.peer = packet.theirs.to_vec();
                    self.against.clone_from(&self.own);
                    send(queue, packet.mark, 2, packet.id, packet.theirs);
                }
                Refuse => {
                    self.naks = MAX_FAILURE.min(self.naks + u8::from(packet.refusal.0 == 3));
                    send(queue, packet.mark, packet.refusal.0, packet.id, &packet.refusal.1);
                }
                Terminate => {
                    self.restart = self.restart.saturating_sub(1);
                    send(queue, 0, 5, self.second_id, &[]);
                    self.second_id = self.second_id.wrapping_add(1);
                }
                TerminateAck => send(queue, 0, 6, packet.id, &[]),
            }
        }
        self.state = next;
    }

    fn send_request(&mut self, queue: &mut Queue) {
        self.restart = self.restart.saturating_sub(1);
        send(queue, self.sent, 1, self.next_id.wrapping_sub(1), &self.own);
    }
}

/// An end is 0 for a and 1 for b.
#[derive(Clone, Copy)]
enum Event { Row(usize, Input), Timeout(usize), Deliver(usize), Lose(usize, usize), Settle(u32), Reboot(usize), Nothing, Show }

/// Both ends, and the queue to each.
struct World { ends: [End; 2], queues: [Queue; 2], steps: u32, report: String }

/// The end whose span is too wide, how many requests it sent, and the oldest of which something is under way.
type Outstanding = (usize, u64, u64);

impl World {
    fn run(&mut self, events: &[Event]) -> Result<(), Outstanding> {
        for event in events {
            let Event::Settle(count) = *event else {
                self.step(*event)?;
                continue;
            };
            for _ in 0..count {
                match (0..2).find(|e| !self.queues[*e].is_empty()) {
                    Some(e) => self.step(Event::Deliver(e))?,
                    None => self.steps += 1,
                }
            }
        }
        Ok(())
    }

    fn step(&mut self, event: Event) -> Result<(), Outstanding> {
        let World { ends, queues, .. } = self;
        let sent = [ends[0].sent, ends[1].sent];
        let word = |e: usize| 2 * u64::from(self.steps + 1) + e as u64;
        match event {
            Event::Row(e, input) => ends[e].row(input, Packet::default(), word(e), &mut queues[1 - e]),
            Event::Timeout(e) => ends[e].timeout(word(e), &mut queues[1 - e]),
            Event::Deliver(e) => {
                if let Some(frame) = queues[e].pop_front() {
                    ends[e].take(&frame, word(e), &mut queues[1 - e]);
                }
            }
            Event::Lose(e, place) => drop(queues[e].remove(place - 1)),
            Event::Reboot(e) => {
                queues.iter_mut().for_each(Queue::clear);
                ends[e] = End::new();
                ends[1 - e].row(Input::Down, Packet::default(), word(1 - e), &mut queues[e]);
            }
            Event::Settle(_) | Event::Nothing => {}
            Event::Show => self.show(),
        }
        for e in 0..2 {
            if self.ends[e].sent > sent[e] {
                self.check_span(e)?;
            }
        }
        self.steps += 1;
        Ok(())
    }

    fn check_span(&self, e: usize) -> Result<(), Outstanding> {
        let requests = self.queues[1 - e].iter().filter(|frame| frame.kind == Kind::Request);
        let answers = self.queues[e].iter().filter(|frame| frame.kind == Kind::Answer);
        let sent = self.ends[e].sent;
        let oldest = requests.chain(answers).map(|frame| frame.mark).min().unwrap_or(sent);
        if sent - oldest > WIDEST { Err((e, sent, oldest)) } else { Ok(()) }
    }

    fn show(&mut self) {
        let [a, b] = &self.ends;
        let allows = |own: &[u8], list: &[u8]| judge_request(own, 0, list, 0).0 == Input::Good;
        let agree = a.own == b.peer && b.own == a.peer && allows(&b.against, &a.own) && allows(&a.against, &b.own);
        let told = if a.state != Opened || b.state != Opened { "-" } else if agree { "yes" } else { "no" };
        let (step, of_a, of_b) = (self.steps + 1, NAMES[a.state as usize], NAMES[b.state as usize]);
        self.report += &format!("show {step}\n1 lcp {of_a} {of_b}");
        for end in [a, b] {
            put_list(&mut self.report, matches!(end.state, AckRcvd | Opened), &end.own);
            put_list(&mut self.report, matches!(end.state, AckSent | Opened), &end.peer);
        }
        self.report += &format!(" agree {told}\n");
    }
}

fn put_list(report: &mut String, is_granted: bool, list: &[u8]) {
    match list {
        _ if !is_granted => *report += " -",
        [] => *report += " empty",
        _ => {
            let digit = |four: u8| char::from(b"0123456789abcdef"[usize::from(four)]);
            report.push(' ');
            report.extend(list.iter().flat_map(|octet| [digit(octet >> 4), digit(octet & 15)]));
        }
    }
}

fn number(field: Option<&[u8]>, most: u32) -> Result<u32, &'static str> {
    match field {
        Some([b'1'..=b'9', ..]) => {}
        _ => return Err("Event"),
    }
    let digits = field.and_then(|field| std::str::from_utf8(field).ok());
    digits.and_then(|digits| digits.parse().ok()).filter(|number| *number <= most).ok_or("Event")
}

fn end_of(field: Option<&[u8]>) -> Result<usize, &'static str> {
    match field {
        Some(b"a") => Ok(0),
        Some(b"b") => Ok(1),
        _ => Err("Event"),
    }
}

/// Reads an event line, or answers why it is refused.
fn event(line: &[u8]) -> Result<Event, &'static str> {
    let mut fields = line.split(|octet| *octet == b' ');
    let name = fields.next().unwrap_or(&[]);
    let mut event = match name {
        b"show" => Event::Show,
        b"settle" => Event::Settle(number(fields.next(), 1000)?),
        b"reboot" => Event::Reboot(end_of(fields.next())?),
        b"up" | b"down" | b"open" | b"close" | b"timeout" | b"deliver" | b"lose" => {
            let end = end_of(fields.next())?;
            if number(fields.next(), 255)? != 1 {
                return Err("Link");
            }
            match name {
                b"up" => Event::Row(end, Input::Up),
                b"down" => Event::Row(end, Input::Down),
                b"open" => Event::Row(end, Input::Open),
                b"close" => Event::Row(end, Input::Close),
                b"timeout" => Event::Timeout(end),
                b"deliver" => Event::Deliver(end),
                _ => Event::Lose(end, number(fields.next(), 1024)? as usize),
            }
        }
        _ => return Err("Event"),
    };
    if matches!(name, b"open" | b"close" | b"timeout") {
        match fields.next() {
            Some(b"lcp") => {}
            Some(b"ip" | b"ipv6" | b"osi" | b"mpls" | b"bacp") => event = Event::Nothing,
            _ => return Err("Event"),
        }
    }
    if fields.next().is_some() { Err("Event") } else { Ok(event) }
}

/// The first line of a text without its end, and what is behind it.
fn split_line(text: &[u8]) -> (&[u8], &[u8]) {
    match text.iter().position(|octet| *octet == b'\n') {
        Some(end) => (text[..end].strip_suffix(b"\r").unwrap_or(&text[..end]), &text[end + 1..]),
        None => (text, &[]),
    }
}

/// Parts an input at its line `---`.
fn part_input(text: &[u8]) -> (&[u8], &[u8]) {
    let mut rest = text;
    while !rest.is_empty() {
        let (line, behind) = split_line(rest);
        if line == b"---" {
            return (&text[..text.len() - rest.len()], behind);
        }
        rest = behind;
    }
    (text, &[])
}

fn read_script(mut text: &[u8]) -> Result<Vec<Event>, (u32, &'static str)> {
    let (mut events, mut steps, mut number) = (Vec::new(), 0, 0);
    while !text.is_empty() {
        let (line, behind) = split_line(text);
        (text, number) = (behind, number + 1);
        if line.is_empty() || line[0] == b'#' {
            continue;
        }
        let event = event(line).map_err(|why| (number, why))?;
        steps += if let Event::Settle(count) = event { count } else { 1 };
        if steps > MOST_STEPS {
            return Err((number, "Steps"));
        }
        events.push(event);
    }
    Ok(events)
}

/// The status, and what is written.
fn reply(text: &[u8]) -> (u8, String) {
    let (settings, script) = part_input(text);
    if !matches!(settings, b"version = 1" | b"version = 1\n" | b"version = 1\r\n") {
        return (5, "config - Toml\n".to_string());
    }
    let events = match read_script(script) {
        Ok(events) => events,
        Err((line, why)) => return (6, format!("line {line} {why}\n")),
    };
    let (ends, queues) = ([End::new(), End::new()], [Queue::new(), Queue::new()]);
    let mut world = World { ends, queues, steps: 0, report: String::new() };
    if let Err((e, sent, oldest)) = world.run(&events) {
        let (step, end) = (world.steps + 1, ["a", "b"][e]);
        world.report += &format!("outstanding step {step} end {end} link 1 lcp sent {sent} oldest {oldest}\n");
        return (7, world.report);
    }
    (0, world.report)
}

fn main() -> ExitCode {
    let words: Vec<_> = std::env::args_os().skip(1).collect();
    let mut text = Vec::new();
    let (status, told) = if words.len() != 1 || words[0] != "replay" {
        (2, USAGE.to_string())
    } else if std::io::stdin().take(MOST_OCTETS as u64 + 1).read_to_end(&mut text).is_err() {
        (3, "read fault\n".to_string())
    } else if text.len() > MOST_OCTETS {
        (4, "too long\n".to_string())
    } else {
        reply(&text)
    };
    let is_written = std::io::stdout().write_all(told.as_bytes()).is_ok();
    ExitCode::from(if is_written { status } else { 9 })
}
