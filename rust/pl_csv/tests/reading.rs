//! What the crate adds to the library: slices, owners, faults, parts on threads.
use pl_csv::{read, read_part, schema, Kind, Parts, State, Type, Unit};
use std::thread;

const SALES: &[u8] = include_bytes!("../../../examples/sales.csv");

#[test]
fn columns_are_slices_of_the_frame() {
    let words = ["--schema=d:date,n:int64,s:string,p:decimal/9/2,c:category,b:boolean,t:datetime/ns"];
    let input = b"d,n,s,p,c,b,t\n1970-01-02,7,x\xc3\xa9,-1.25,q,true,1970-01-01T00:00:00.000000001\n,,,,,,\n";
    let frame = read(input, &words).unwrap();
    assert_eq!((frame.height(), frame.width()), (2, 7));
    assert_eq!(frame.column("d").unwrap().numbers(), [1, 0]);
    assert_eq!(frame.column("n").unwrap().present(), [true, false]);
    assert_eq!(frame.column("n").unwrap().null_count(), 1);
    assert_eq!(frame.column("s").unwrap().texts().iter().collect::<Vec<_>>(), ["x\u{e9}", ""]);
    let price = frame.column("p").unwrap();
    assert_eq!((price.dtype(), price.wide(0), price.wide(2)), (Type::Decimal(Some(9), 2), Some(-125), None));
    assert_eq!(frame.column("c").unwrap().categories().collect::<Vec<_>>(), ["q"]);
    assert_eq!(frame.column("b").unwrap().numbers(), [1, 0]);
    let instant = frame.column("t").unwrap();
    assert_eq!((instant.dtype(), instant.wide(0)), (Type::Datetime(Unit::Nanoseconds), Some(1)));
    assert!(frame.column("z").is_none());
}

#[test]
fn faults_tell_their_place() {
    let fault = read(b"a\n1\nx\n", &["--infer=1"]).err().unwrap();
    assert_eq!((fault.status, fault.line.as_str()), (24, "refusal 14 record 1 column 0 value"));
    assert_eq!(fault.kind, Kind::Record { record: 1, column: 0, kind: "value".into() });
    assert_eq!(fault.to_string(), "record 2, column 1: value");
    assert_eq!(read(b"a\n", &["--sepp=;"]).err().unwrap().kind, Kind::Words);
    assert_eq!(read(b"a\n", &["--columns=no such"]).err().unwrap().kind, Kind::NotFound("no such".into()));
}

#[test]
fn what_is_written_is_read_again() {
    let frame = read(SALES, &[]).unwrap();
    let text = frame.write(&["--out-sep=;"]).unwrap();
    let again = read(&text, &["--sep=;"]).unwrap();
    assert_eq!(again.height(), 9);
    assert_eq!(again.write(&[]).unwrap(), frame.write(&[]).unwrap());
}

#[test]
fn frames_go_to_other_threads() {
    let frame = read(SALES, &[]).unwrap();
    let height = thread::spawn(move || frame.height()).join().unwrap();
    assert_eq!(height, 9);
}

#[test]
fn parts_joined_are_the_whole() {
    let whole = schema(SALES, &["--nulls=NA,-"]).unwrap();
    let told = format!("--schema={whole}");
    let words = [told.as_str(), "--nulls=NA,-"];
    let expected = read(SALES, &["--nulls=NA,-"]).unwrap().write(&["--out-no-header"]).unwrap();
    for size in 1..200 {
        let parts: Vec<_> = Parts::new(SALES, b'\n', size, &[]).unwrap().collect();
        let texts: Vec<_> = thread::scope(|scope| {
            let started: Vec<_> = parts.iter().map(|part| scope.spawn(move || read_part(part, &words, 0, usize::MAX >> 1))).collect();
            started.into_iter().map(|it| it.join().unwrap().unwrap().write(&["--out-no-header"]).unwrap()).collect()
        });
        assert_eq!(texts.concat(), expected, "size {size}");
    }
}

#[test]
fn summaries_compose() {
    let first = pl_csv::summarize(b"a,\"b\n", &[]).unwrap();
    let second = pl_csv::summarize(b"c\"\n", &[]).unwrap();
    assert_eq!(first.behind(State::Start), State::Open);
    assert_eq!(first.then(&second).behind(State::Start), State::Start);
}
