//! A node as one would write it without proofs, to compare with: the same requests and replies, a hash map under one lock for each vnode, a
//! thread for each connection. It knows what the benchmarks send: pings, gets with `head`, puts with `return_body` and `return_head`, and
//! deletes, with contexts of version 2, over the default bucket type. No options beside, no refusals, no limits.
//!
//!     rustc -O -o node node.rs
//!     node pipe [RING]
//!     node serve CONNECTIONS [RING]
use std::collections::HashMap;
use std::io::{Read, Write};
use std::net::TcpListener;
use std::sync::{Arc, Mutex};

/// A value's encoded content; none is a tombstone.
type Sibling = Option<Vec<u8>>;

/// What an actor has issued, and its values that are siblings, newest first.
struct Entry {
    actor: (u64, u32),
    counter: u64,
    values: Vec<Sibling>,
}

/// The entries of a key, by actor, and the actor of its life.
struct Clock {
    actor: (u64, u32),
    entries: Vec<Entry>,
}

struct Vnode {
    id: u64,
    epoch: u32,
    keys: HashMap<Vec<u8>, Clock>,
}

/// The fields that a request may have.
#[derive(Default)]
struct Request<'a> {
    bucket: &'a [u8],
    key: &'a [u8],
    context: &'a [u8],
    content: &'a [u8],
    head: bool,
    return_body: bool,
    return_head: bool,
}

fn varint(bytes: &[u8], at: &mut usize) -> usize {
    let (mut value, mut shift) = (0, 0);
    loop {
        let byte = bytes[*at];
        *at += 1;
        value |= ((byte & 0x7f) as usize) << shift;
        if byte < 0x80 {
            return value;
        }
        shift += 7;
    }
}

fn push_varint(out: &mut Vec<u8>, mut value: usize) {
    while value >= 0x80 {
        out.push(value as u8 | 0x80);
        value >>= 7;
    }
    out.push(value as u8);
}

fn push_field(out: &mut Vec<u8>, number: u8, bytes: &[u8]) {
    out.push(number << 3 | 2);
    push_varint(out, bytes.len());
    out.extend_from_slice(bytes);
}

fn read_request(code: u8, body: &[u8]) -> Request<'_> {
    let mut request = Request::default();
    let mut at = 0;
    while at < body.len() {
        let tag = varint(body, &mut at);
        let value = varint(body, &mut at);
        if tag & 7 == 0 {
            match (code, tag >> 3) {
                (9, 8) => request.head = value != 0,
                (11, 7) => request.return_body = value != 0,
                (11, 11) => request.return_head = value != 0,
                _ => {}
            }
            continue;
        }
        let bytes = &body[at..at + value];
        at += value;
        match (code, tag >> 3) {
            (_, 1) => request.bucket = bytes,
            (_, 2) => request.key = bytes,
            (11, 3) | (13, 4) => request.context = bytes,
            (11, 4) => request.content = bytes,
            _ => {}
        }
    }
    request
}

impl Clock {
    /// Drops what the context covers.
    fn discard(&mut self, context: &[u8]) {
        for pair in context.get(1..).unwrap_or_default().chunks_exact(20) {
            let vnode = u64::from_be_bytes(pair[..8].try_into().unwrap());
            let epoch = u32::from_be_bytes(pair[8..12].try_into().unwrap());
            let seen = u64::from_be_bytes(pair[12..].try_into().unwrap());
            let place = self.entries.binary_search_by_key(&(vnode, epoch), |entry| entry.actor);
            let entry = match place {
                Ok(at) => &mut self.entries[at],
                Err(at) => {
                    self.entries.insert(at, Entry { actor: (vnode, epoch), counter: 0, values: Vec::new() });
                    &mut self.entries[at]
                }
            };
            let unseen = entry.counter.saturating_sub(seen) as usize;
            entry.values.truncate(unseen);
            entry.counter = entry.counter.max(seen);
        }
    }

    fn event(&mut self, value: Sibling) {
        let place = self.entries.binary_search_by_key(&self.actor, |entry| entry.actor);
        let at = place.unwrap_or_else(|at| {
            self.entries.insert(at, Entry { actor: self.actor, counter: 0, values: Vec::new() });
            at
        });
        self.entries[at].counter += 1;
        self.entries[at].values.insert(0, value);
    }

    fn is_dead(&self) -> bool {
        self.entries.iter().all(|entry| entry.values.iter().all(|value| value.is_none()))
    }

    /// The siblings, by their heads alone where these are asked for, and the context.
    fn show(&self, is_head: bool, out: &mut Vec<u8>) {
        for sibling in self.entries.iter().flat_map(|entry| &entry.values) {
            match sibling {
                Some(content) if is_head => {
                    let mut at = 1;
                    let end = varint(content, &mut at) + at;
                    push_field(out, 1, &[&[10, 0], &content[end..]].concat());
                }
                Some(content) => push_field(out, 1, content),
                None => push_field(out, 1, &[10, 0, 0x58, 1]),
            }
        }
        out.push(2 << 3 | 2);
        push_varint(out, 1 + 20 * self.entries.len());
        out.push(2);
        for entry in &self.entries {
            out.extend_from_slice(&entry.actor.0.to_be_bytes());
            out.extend_from_slice(&entry.actor.1.to_be_bytes());
            out.extend_from_slice(&entry.counter.to_be_bytes());
        }
    }
}

impl Vnode {
    fn get(&self, name: &[u8], is_head: bool, out: &mut Vec<u8>) {
        if let Some(clock) = self.keys.get(name).filter(|clock| !clock.is_dead()) {
            clock.show(is_head, out);
        }
    }

    fn change(&mut self, name: Vec<u8>, request: &Request, value: Sibling, out: &mut Vec<u8>) {
        let clock = self.keys.entry(name).or_insert_with(|| {
            self.epoch += 1;
            Clock { actor: (self.id, self.epoch), entries: Vec::with_capacity(1) }
        });
        clock.discard(request.context);
        clock.event(value);
        if request.return_body || request.return_head {
            clock.show(!request.return_body, out);
        }
    }

    fn delete(&mut self, name: Vec<u8>, request: &Request, out: &mut Vec<u8>) {
        if let Some(clock) = self.keys.get_mut(&name) {
            if request.context.is_empty() {
                clock.entries.iter_mut().for_each(|entry| entry.values.clear());
            }
            self.change(name, request, None, out);
        }
    }
}

/// SHA-1 of a key's parts, each after its length: the first four bytes of the digest.
fn digest(name: &[u8]) -> u32 {
    let mut h = [0x67452301u32, 0xefcdab89, 0x98badcfe, 0x10325476, 0xc3d2e1f0];
    let whole = name.len() / 64 * 64;
    name[..whole].chunks_exact(64).for_each(|block| compress(&mut h, block.try_into().unwrap()));
    let mut tail = [0; 128];
    let rest = &name[whole..];
    tail[..rest.len()].copy_from_slice(rest);
    tail[rest.len()] = 0x80;
    let end = if rest.len() < 56 { 64 } else { 128 };
    tail[end - 8..end].copy_from_slice(&(8 * name.len() as u64).to_be_bytes());
    tail[..end].chunks_exact(64).for_each(|block| compress(&mut h, block.try_into().unwrap()));
    h[0]
}

fn compress(h: &mut [u32; 5], block: &[u8; 64]) {
    let mut w = [0u32; 80];
    for (word, bytes) in w.iter_mut().zip(block.chunks_exact(4)) {
        *word = u32::from_be_bytes(bytes.try_into().unwrap());
    }
    for t in 16..80 {
        w[t] = (w[t - 3] ^ w[t - 8] ^ w[t - 14] ^ w[t - 16]).rotate_left(1);
    }
    let v = rounds(*h, &w[..20], |b, c, d| d ^ (b & (c ^ d)), 0x5a827999);
    let v = rounds(v, &w[20..40], |b, c, d| b ^ c ^ d, 0x6ed9eba1);
    let v = rounds(v, &w[40..60], |b, c, d| (b & c) | (d & (b | c)), 0x8f1bbcdc);
    let v = rounds(v, &w[60..], |b, c, d| b ^ c ^ d, 0xca62c1d6);
    h.iter_mut().zip(v).for_each(|(sum, part)| *sum = sum.wrapping_add(part));
}

/// Twenty rounds, five at a time, so that no value moves.
#[inline(always)]
fn rounds(v: [u32; 5], w: &[u32], f: impl Fn(u32, u32, u32) -> u32, k: u32) -> [u32; 5] {
    let [mut a, mut b, mut c, mut d, mut e] = v;
    let mix = |a: u32, f: u32, e: u32, w: u32| a.rotate_left(5).wrapping_add(f).wrapping_add(e).wrapping_add(k).wrapping_add(w);
    for w in w.chunks_exact(5) {
        e = mix(a, f(b, c, d), e, w[0]);
        b = b.rotate_left(30);
        d = mix(e, f(a, b, c), d, w[1]);
        a = a.rotate_left(30);
        c = mix(d, f(e, a, b), c, w[2]);
        e = e.rotate_left(30);
        b = mix(c, f(d, e, a), b, w[3]);
        d = d.rotate_left(30);
        a = mix(b, f(c, d, e), a, w[4]);
        c = c.rotate_left(30);
    }
    [a, b, c, d, e]
}

fn answer(vnodes: &[Mutex<Vnode>], code: u8, body: &[u8], out: &mut Vec<u8>) {
    let start = out.len();
    out.extend_from_slice(&[0, 0, 0, 0, code + 1]);
    if code != 1 {
        let request = read_request(code, body);
        let mut name = Vec::with_capacity(19 + request.bucket.len() + request.key.len());
        for part in [b"default", request.bucket, request.key] {
            name.extend_from_slice(&(part.len() as u32).to_be_bytes());
            name.extend_from_slice(part);
        }
        let index = if vnodes.len() == 1 { 0 } else { digest(&name) as u64 * vnodes.len() as u64 >> 32 };
        let mut vnode = vnodes[index as usize].lock().unwrap();
        match code {
            9 => vnode.get(&name, request.head, out),
            11 => vnode.change(name, &request, Some(request.content.to_vec()), out),
            _ => vnode.delete(name, &request, out),
        }
    }
    let len = (out.len() - start - 4) as u32;
    out[start..start + 4].copy_from_slice(&len.to_be_bytes());
}

/// Answers all whole frames of what a read brought, and writes the replies at once.
fn serve(vnodes: &[Mutex<Vnode>], mut reader: impl Read, mut writer: impl Write) -> std::io::Result<()> {
    let (mut input, mut piece, mut out) = (Vec::new(), [0; 4096], Vec::new());
    loop {
        let count = reader.read(&mut piece)?;
        if count == 0 {
            return Ok(());
        }
        input.extend_from_slice(&piece[..count]);
        let mut at = 0;
        while let Some(head) = input.get(at..at + 5) {
            let len = u32::from_be_bytes(head[..4].try_into().unwrap()) as usize;
            let Some(body) = input.get(at + 5..at + 4 + len) else { break };
            answer(vnodes, head[4], body, &mut out);
            at += 4 + len;
        }
        input.drain(..at);
        writer.write_all(&out)?;
        out.clear();
    }
}

fn main() -> std::io::Result<()> {
    let words: Vec<String> = std::env::args().collect();
    let ring: u64 = words.get(if words[1] == "pipe" { 2 } else { 3 }).map_or(1, |word| word.parse().unwrap());
    let vnode = |index: u64| Mutex::new(Vnode { id: 65_536 + index, epoch: 0, keys: HashMap::new() });
    let vnodes: Arc<Vec<_>> = Arc::new((0..ring).map(vnode).collect());
    if words[1] == "pipe" {
        return serve(&vnodes, std::io::stdin().lock(), std::fs::File::create("/dev/stdout")?);
    }
    let listener = TcpListener::bind("127.0.0.1:0")?;
    println!("listening {}", listener.local_addr()?);
    let connections = words[2].parse().unwrap();
    let threads: Vec<_> = (0..connections)
        .map(|_| {
            let (stream, vnodes) = (listener.accept().unwrap().0, vnodes.clone());
            std::thread::spawn(move || {
                stream.set_nodelay(true).unwrap();
                let _ = serve(&vnodes, &stream, &stream);
            })
        })
        .collect();
    threads.into_iter().for_each(|thread| thread.join().unwrap());
    Ok(())
}
