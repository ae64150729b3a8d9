// The work of the program `measure` as plain Rust: the same texts, read and written in the plain way.
use std::env;

const NAMES: [&[u8]; 6] = [
    b"java/lang/Object",
    b"<init>",
    b"toString",
    b"app/\xe3\x83\x86\xe3\x82\xb9\xe3\x83\x88/Gr\xc3\xb6\xc3\x9fe",
    b"\xc0\x80\xed\xa0\xbd\xed\xb8\x80",
    b"org/example/project/internal/AVeryLongNameOfAClassThatGoesOn",
];

const FIELDS: [&[u8]; 4] = [
    b"I",
    b"[[J",
    b"Ljava/lang/String;",
    b"[[[Lorg/example/project/internal/Node;",
];

const METHODS: [&[u8]; 4] = [
    b"()V",
    b"(IJ[Ljava/lang/Object;)V",
    b"([Ljava/lang/String;)V",
    b"(Ljava/lang/Object;ILjava/lang/Object;II)Ljava/util/Map;",
];

enum RefType {
    Class(Vec<u8>),
    PrimArray(u8),
    Array(Box<RefType>),
}

enum Desc {
    Prim(u8),
    Ref(RefType),
}

fn units_of(bytes: &[u8]) -> Option<Vec<u16>> {
    let mut units = Vec::new();
    let mut rest = bytes;
    while let [a, after @ ..] = rest {
        match (a, after) {
            (1..=0x7f, _) => {
                units.push(u16::from(*a));
                rest = after;
            }
            (0xc0..=0xdf, [b @ 0x80..=0xbf, more @ ..]) => {
                let unit = 64 * u16::from(a - 0xc0) + u16::from(b - 0x80);
                if unit != 0 && unit < 0x80 {
                    return None;
                }
                units.push(unit);
                rest = more;
            }
            (0xe0..=0xef, [b @ 0x80..=0xbf, c @ 0x80..=0xbf, more @ ..]) => {
                let unit =
                    4096 * u16::from(a - 0xe0) + 64 * u16::from(b - 0x80) + u16::from(c - 0x80);
                if unit < 0x800 {
                    return None;
                }
                units.push(unit);
                rest = more;
            }
            _ => return None,
        }
    }
    Some(units)
}

fn text_of(units: &[u16]) -> Vec<u8> {
    let mut text = Vec::new();
    for unit in units {
        match unit {
            1..=0x7f => text.push(*unit as u8),
            0..=0x7ff => text.extend_from_slice(&[0xc0 + (unit / 64) as u8, 0x80 + (unit % 64) as u8]),
            _ => text.extend_from_slice(&[
                0xe0 + (unit / 4096) as u8,
                0x80 + (unit / 64 % 64) as u8,
                0x80 + (unit % 64) as u8,
            ]),
        }
    }
    text
}

fn is_class_name(name: &[u8]) -> bool {
    let mut begun = false;
    for byte in name {
        match byte {
            b'/' if begun => begun = false,
            b'/' | b'.' | b';' | b'[' => return false,
            _ => begun = true,
        }
    }
    begun
}

fn is_letter(byte: u8) -> bool {
    matches!(byte, b'Z' | b'C' | b'F' | b'D' | b'B' | b'S' | b'I' | b'J')
}

fn ref_at(most: u16, bytes: &[u8]) -> Option<(RefType, &[u8])> {
    match bytes {
        [b'L', rest @ ..] => {
            let end = rest.iter().position(|byte| *byte == b';')?;
            if !is_class_name(&rest[..end]) {
                return None;
            }
            Some((RefType::Class(rest[..end].to_vec()), &rest[end + 1..]))
        }
        [b'[', rest @ ..] if most > 0 => match rest {
            [letter, after @ ..] if is_letter(*letter) => Some((RefType::PrimArray(*letter), after)),
            _ => {
                let (item, after) = ref_at(most - 1, rest)?;
                Some((RefType::Array(Box::new(item)), after))
            }
        },
        _ => None,
    }
}

fn desc_at(bytes: &[u8]) -> Option<(Desc, &[u8])> {
    match bytes {
        [letter, rest @ ..] if is_letter(*letter) => Some((Desc::Prim(*letter), rest)),
        _ => ref_at(255, bytes).map(|(of, rest)| (Desc::Ref(of), rest)),
    }
}

fn field_desc(bytes: &[u8]) -> Option<Desc> {
    match desc_at(bytes)? {
        (desc, []) => Some(desc),
        _ => None,
    }
}

fn method_desc(bytes: &[u8]) -> Option<(Vec<Desc>, Option<Desc>)> {
    let [b'(', rest @ ..] = bytes else { return None };
    let mut params = Vec::new();
    let mut left = rest;
    loop {
        match left {
            [b')', b'V'] => return Some((params, None)),
            [b')', after @ ..] => return Some((params, Some(field_desc(after)?))),
            _ => {
                let (desc, after) = desc_at(left)?;
                params.push(desc);
                left = after;
            }
        }
    }
}

fn put_ref(text: &mut Vec<u8>, of: &RefType) {
    match of {
        RefType::Class(name) => {
            text.push(b'L');
            text.extend_from_slice(name);
            text.push(b';');
        }
        RefType::PrimArray(letter) => text.extend_from_slice(&[b'[', *letter]),
        RefType::Array(item) => {
            text.push(b'[');
            put_ref(text, item);
        }
    }
}

fn put_desc(text: &mut Vec<u8>, desc: &Desc) {
    match desc {
        Desc::Prim(letter) => text.push(*letter),
        Desc::Ref(of) => put_ref(text, of),
    }
}

fn names(writes: bool) -> usize {
    let mut bytes = 0;
    for name in NAMES {
        let units = units_of(name).unwrap();
        bytes += name.len();
        if writes {
            bytes += text_of(&units).len();
        }
    }
    bytes
}

fn descriptors(shows: bool) -> usize {
    let mut bytes = 0;
    for field in FIELDS {
        let desc = field_desc(field).unwrap();
        bytes += field.len();
        if shows {
            let mut text = Vec::new();
            put_desc(&mut text, &desc);
            bytes += text.len();
        }
    }
    for method in METHODS {
        let (params, found) = method_desc(method).unwrap();
        bytes += method.len();
        if shows {
            let mut text = vec![b'('];
            for param in &params {
                put_desc(&mut text, param);
            }
            text.push(b')');
            match &found {
                Some(desc) => put_desc(&mut text, desc),
                None => text.push(b'V'),
            }
            bytes += text.len();
        }
    }
    bytes
}

fn main() {
    let args: Vec<String> = env::args().collect();
    let rounds: u32 = args[2].parse().unwrap();
    let mut bytes = 0;
    for _ in 0..rounds {
        bytes += match args[1].as_str() {
            "read-names" => names(false),
            "names" => names(true),
            "read-descriptors" => descriptors(false),
            _ => descriptors(true),
        };
    }
    println!("{bytes}");
}
