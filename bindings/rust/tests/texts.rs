//! The texts of the folder that MIFDAGUS_TEXTS names, with their traces, and refusals.

use mifdagus::{Judgement, Refusal};
use std::{env, fs};

const PAGE: &[u8] = b"script 1\nblock a top\nappend top a\nset a height 10px\ntick 0\n";

#[test]
fn traces() {
    let Ok(folder) = env::var("MIFDAGUS_TEXTS") else {
        return;
    };
    let mut count = 0;
    for entry in fs::read_dir(folder).unwrap() {
        let path = entry.unwrap().path();
        if path.extension().is_some_and(|ending| ending == "script") {
            let found = match mifdagus::replay(&fs::read(&path).unwrap()) {
                Ok(trace) => trace.text,
                Err(Refusal::Syntax { line, column }) => format!("syntax {line} {column}\n").into_bytes(),
                Err(refusal) => panic!("{}: {refusal}", path.display()),
            };
            assert!(found == fs::read(path.with_extension("trace")).unwrap(), "{}", path.display());
            count += 1;
        }
    }
    assert!(count > 0);
}

#[test]
fn limits() {
    let reply = mifdagus::replay(&vec![b'#'; 16_777_217]).unwrap();
    let limit = reply.limit.unwrap();
    assert_eq!((limit.kind.as_str(), limit.line, limit.number), ("script", 1, 16_777_216));
}

#[test]
fn long_replies() {
    let script = [b"script 1\n".to_vec(), b"say abcdefgh\n".repeat(20_000)].concat();
    assert_eq!(mifdagus::replay(&script).unwrap().text, script[9..]);
}

#[test]
fn printed_scripts() {
    assert_eq!(mifdagus::print(b"script 1\nsay  a\n").unwrap().text, b"script 1\nsay a\n");
}

#[test]
fn refusals() {
    for text in [&b""[..], b"\0", b"script 3\n", &[255; 1000]] {
        assert!(matches!(mifdagus::replay(text), Err(Refusal::Syntax { .. })));
    }
    for tick in [0, 1_000_001, u64::MAX] {
        assert_eq!(mifdagus::inspect(PAGE, tick), Err(Refusal::Usage));
    }
    for x in ["", "5", "5em", "\u{fffd}px", "5px\0"] {
        assert_eq!(mifdagus::hit(PAGE, 1, x, "5px"), Err(Refusal::Usage));
    }
    assert_eq!(mifdagus::generate(1_000_001), Err(Refusal::Usage));
}

#[test]
fn pages_and_judgements() {
    let pages = mifdagus::pages(b"page a\nscript 1\nsay b\npage c\nsay\n").unwrap();
    assert_eq!((pages.reply.text.as_slice(), pages.are_scripts), (&b"c syntax 1 1\na say b\n"[..], false));
    assert!(!mifdagus::pages(b"").unwrap().are_scripts);
    assert!(matches!(mifdagus::judge(b"").unwrap(), Judgement::Differs(_)));
}

#[test]
fn threads() {
    let wanted = mifdagus::generate_run(5).unwrap();
    let threads: Vec<_> = (0..8).map(|_| std::thread::spawn(|| mifdagus::generate_run(5).unwrap())).collect();
    for thread in threads {
        assert_eq!(thread.join().unwrap(), wanted);
    }
}
