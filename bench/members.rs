// Looking up the methods of a class as plain Rust: a chain of so many classes, each with so many methods of other
// names, and so many methods in the topmost one. Each of these is looked up twice from the lowest class, as
// resolution and selection do, and that so many times. With `scan` the methods of a class are gone over; with
// `halves` their places stand in order of name and descriptor. Prints how many were found both times.
use std::cmp::Ordering;

#[derive(PartialEq, Eq, PartialOrd, Ord)]
struct Desc {
    params: Vec<Vec<u8>>,
    result: Option<Vec<u8>>,
}

struct Method {
    name: Vec<u8>,
    desc: Desc,
}

struct Class {
    methods: Vec<Method>,
    places: Vec<u16>,
}

fn plain_desc() -> Desc {
    Desc { params: Vec::new(), result: None }
}

fn compare(method: &Method, name: &[u8], desc: &Desc) -> Ordering {
    method.name.as_slice().cmp(name).then_with(|| method.desc.cmp(desc))
}

fn class_of(kind: &str, count: usize) -> Class {
    let methods: Vec<Method> = (0..count)
        .map(|number| Method { name: format!("{kind}{number}").into_bytes(), desc: plain_desc() })
        .collect();
    let mut places: Vec<u16> = (0..count as u16).collect();
    places.sort_unstable_by(|a, b| {
        let other = &methods[*b as usize];
        compare(&methods[*a as usize], &other.name, &other.desc).then(a.cmp(b))
    });
    Class { methods, places }
}

fn scan(class: &Class, name: &[u8], desc: &Desc) -> Option<usize> {
    class.methods.iter().position(|method| method.name == name && method.desc == *desc)
}

fn halves(class: &Class, name: &[u8], desc: &Desc) -> Option<usize> {
    let at = class.places.partition_point(|place| {
        compare(&class.methods[*place as usize], name, desc).is_lt()
    });
    let place = *class.places.get(at)? as usize;
    compare(&class.methods[place], name, desc).is_eq().then_some(place)
}

fn main() {
    let words: Vec<String> = std::env::args().skip(1).collect();
    let number = |place: usize| words[place].parse::<usize>().expect("a number");
    let (classes, methods, others, rounds) = (number(1), number(2), number(3), number(4));
    let look = match words[0].as_str() {
        "scan" => scan,
        "halves" => halves,
        _ => panic!("scan or halves"),
    };
    // the topmost class stands last
    let mut chain: Vec<Class> = (1..classes).map(|_| class_of("other", others)).collect();
    chain.push(class_of("method", methods));
    let desc = plain_desc();
    let names: Vec<Vec<u8>> = (0..methods).map(|number| format!("method{number}").into_bytes()).collect();
    let is_found = |name: &Vec<u8>| chain.iter().any(|class| look(class, name, &desc).is_some());
    let mut found = 0;
    for _ in 0..rounds {
        found += names.iter().filter(|name| is_found(name) && is_found(name)).count();
    }
    println!("{found}");
}
