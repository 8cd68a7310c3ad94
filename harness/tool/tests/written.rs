//! What a backup and a closing write.

mod common;
use common::Bench;

/// Bytes that a shell and all that it has waited for have written.
fn written(io: &str) -> usize {
    io.lines().find_map(|line| line.strip_prefix("wchar: ")).unwrap().parse().unwrap()
}

/// What a line writes besides its reply, which it has to give.
fn written_by(bench: &Bench, line: &str, reply: &str) -> usize {
    let run = bench.shell(&format!("cat /proc/$$/io; lurdempos {line}; cat /proc/$$/io"));
    let (before, after) = run.accepted().out.split_once(reply).unwrap();
    // The first `cat` writes too.
    written(after) - written(before) - before.len() - reply.len()
}

/// A backup of the default store writes the file once, and besides it no more than its reply.
#[test]
fn no_more_than_the_file() {
    let bench = Bench::new("written");
    bench.run("init s").accepted();
    bench.write("image", vec![7; 33_268]);
    let bytes = written_by(&bench, "backup s 3 image", "till 3: version 1 kept, 33268 bytes\n");
    assert_eq!((bytes, bench.read("s").len()), (4_586_536, 4_586_536));
}

/// So does a closing of 16 tills.
#[test]
fn once_for_all_tills() {
    let bench = Bench::new("written-once");
    bench.run("init s").accepted();
    bench.write("image", vec![7; 33_268]);
    let line: String = (0..16).map(|till| format!(" {till}=image")).collect();
    let reply: String = (0..16).map(|till| format!("till {till}: version 1 kept, 33268 bytes\n")).collect();
    let bytes = written_by(&bench, &format!("closing s{line}"), &reply);
    assert_eq!((bytes, bench.read("s").len()), (4_586_536, 4_586_536));
}

/// Of the stores on a disk one is written.
#[test]
fn one_store_of_several() {
    let bench = Bench::new("written-one");
    ["s", "t"].iter().for_each(|name| drop(bench.run(&format!("init {name}")).accepted().out.clone()));
    bench.write("image", vec![7; 33_268]);
    let line = "backup s 3 image --with t --limit 16";
    assert_eq!(written_by(&bench, line, "till 3: version 1 kept, 33268 bytes\n"), 4_586_536);
}
