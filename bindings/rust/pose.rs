//! A vehicle publishes its pose while the type changes: the library from Rust. It prints what the caller in C prints, bindings/c/pose.out.
//!
//!     rustc --edition 2021 bindings/rust/pose.rs -L out -l static=xt -o pose
mod ruhvelma;

use ruhvelma::{policy::STANDARD, Bundle, Floats, Reader, Refused, Rep, Types, Verdict};
use std::thread;

/// Three versions of a type. The second appends a member; the third has wider numbers. And a type with floats.
const VERSIONS: [&str; 4] = [
    "module geo { @appendable struct Pose { @key string<32> vehicle; long east; long north; }; };",
    "module geo { @appendable struct Pose { @key string<32> vehicle; long east; long north; @optional long heading; }; };",
    "module geo { @appendable struct Pose { @key string<32> vehicle; long long east; long long north; }; };",
    "module geo { @final struct Fix { double height; float speed; }; };",
];

const OLDER: &str = r#"{"vehicle":"rover-7","east":12500,"north":-300}"#;
const NEWER: &str = r#"{"vehicle":"rover-7","east":12500,"north":-300,"heading":90}"#;

fn open_types() -> Result<Types, Refused> {
    let bundle = VERSIONS.iter().fold(Bundle::new(), |bundle, text| bundle.idl(text));
    Types::open(bundle.octets())
}

fn open_reader(types: &Types, reads: &str, writes: &str) -> Result<Reader, Refused> {
    Reader::open(types, reads, writes, Rep::Xcdr2, STANDARD)
}

fn show_octets(what: &str, octets: &[u8]) {
    let digits: String = octets.iter().map(|octet| format!(" {octet:02x}")).collect();
    println!("{what}:{digits}");
}

fn show_verdict(what: &str, verdict: Verdict) {
    match verdict {
        Verdict::Yes => println!("{what}: yes"),
        Verdict::No(why) => println!("{what}: {why}"),
    }
}

fn show_refusal<T>(what: &str, answer: Result<T, Refused>) {
    match answer {
        Ok(_) => println!("{what}: done"),
        Err(refused) if refused.text.is_empty() => println!("{what}: refused {}", refused.code),
        Err(refused) => println!("{what}: refused {}, {}", refused.code, refused.text),
    }
}

fn show_types(types: &Types) -> Result<(), Refused> {
    println!("complete identifier: {}", types.type_id("0/geo::Pose")?);
    println!("minimal identifier: {}", types.minimal_id("0/geo::Pose")?);
    print!("{}", types.print("0/geo::Pose")?);
    show_verdict("the second reads the first", types.judge("1/geo::Pose", "0/geo::Pose", Rep::Xcdr2, STANDARD)?);
    show_verdict("the third reads the first", types.judge("2/geo::Pose", "0/geo::Pose", Rep::Xcdr2, STANDARD)?);
    show_refusal("no such type", open_reader(types, "geo::Plan", "geo::Pose"));
    Ok(())
}

fn show_floats(fixes: &Reader) -> Result<(), Refused> {
    let sample = fixes.write(r#"{"height":12.5,"speed":0.1}"#, Rep::Xcdr2)?;
    show_octets("floats", &sample);
    println!("as bits: {}", fixes.read_as(Floats::Bits, &sample)?);
    println!("as numbers: {}", fixes.read(&sample)?);
    show_refusal("too large for a float", fixes.write(r#"{"height":1e39,"speed":1e39}"#, Rep::Xcdr2));
    Ok(())
}

/// A sample that a reader on another thread writes.
fn written_elsewhere(reader: Reader, json: &'static str) -> Result<Vec<u8>, Refused> {
    thread::spawn(move || reader.write(json, Rep::Xcdr2)).join().expect("the thread ends by itself")
}

fn show_newer(first: &Reader, second: Reader) -> Result<(), Refused> {
    println!("read by the first: {}", first.read(&written_elsewhere(second, NEWER)?)?);
    show_refusal("a text for a number", first.write(r#"{"vehicle":"rover-7","east":"far","north":-300}"#, Rep::Xcdr2));
    show_refusal("no JSON", first.write("{", Rep::Xcdr2));
    Ok(())
}

fn show_older(first: &Reader, second: &Reader) -> Result<(), Refused> {
    let sample = first.write(OLDER, Rep::Xcdr2)?;
    show_octets("written", &sample);
    println!("read by the second: {}", second.read(&sample)?);
    show_octets("key hash", &first.key_hash(&sample)?);
    show_octets("converted", &first.convert(&sample, Rep::Xcdr1)?);
    show_refusal("a cut sample", first.read(&sample[..sample.len() - 3]));
    Ok(())
}

fn main() -> Result<(), Refused> {
    let types = open_types()?;
    show_types(&types)?;
    let mut first = open_reader(&types, "0/geo::Pose", "1/geo::Pose")?;
    let second = open_reader(&types, "1/geo::Pose", "0/geo::Pose")?;
    show_floats(&open_reader(&types, "geo::Fix", "geo::Fix")?)?;
    drop(types);
    show_older(&first, &second)?;
    show_newer(&first, second)?;
    first.close();
    show_refusal("a closed reader", first.read(&[]));
    Ok(())
}
