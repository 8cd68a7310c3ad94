//! Files of form 1, which have no checksums: they are read, and become form 2 at their next change. The two in `files`
//! were made by the tool before it had form 2.

mod common;
use common::{file_of, form_1_of, kept_file, letters, Bench};
use lurdempos::{Capacities, Store, OWNER};

/// What `form1-versions.lur` was made with: till, image, and the version that was retired before it.
fn history() -> Vec<(u32, Vec<u8>, Option<u32>)> {
    let texts = ["ABCDEFGH", "ABCDEFGZ", "A.CDEFGZQR", "ABCDEFGHIJKLMNOP"];
    let mut history: Vec<(u32, Vec<u8>, Option<u32>)> = texts.map(|text| (0, letters(text), None)).into();
    history.push((0, letters("ABCDEFGHIJKLMNOX"), Some(1)));
    history.push((2, (0..1000u32).map(|n| (n * n % 251) as u8).collect(), None));
    history.push((2, letters("ABCDEFGZ")[..450].to_vec(), None));
    history
}

fn store_with(history: &[(u32, Vec<u8>, Option<u32>)]) -> Store {
    let mut store = Store::new(Capacities::new(3, 4, 16, 24, 96)).unwrap();
    for (till, image, retired) in history {
        if let Some(version) = retired {
            store.retire(OWNER, *till, *version).unwrap();
        }
        store.backup(OWNER, *till, image).unwrap();
    }
    store
}

#[test]
fn an_empty_one_is_read() {
    let bench = Bench::new("form-1-empty");
    let store = Store::new(Capacities::new(2, 4, 16, 8, 64)).unwrap();
    assert_eq!(kept_file("form1-empty.lur"), form_1_of(store.pool(), store.table()));
    bench.write("s", kept_file("form1-empty.lur"));
    bench.run("check s").accepted().says("s: sound, 2 tills x 4 versions").says("; without checksums until its next");
    bench.run("list s").accepted().says("till 0: nothing yet\ntill 1: nothing yet\n");
    assert_eq!(bench.read("s"), kept_file("form1-empty.lur"), "readers change nothing");
}

#[test]
fn one_with_versions_is_read_and_becomes_form_2() {
    let bench = Bench::new("form-1-versions");
    let (old, history) = (kept_file("form1-versions.lur"), history());
    let mut store = store_with(&history);
    assert_eq!(old, form_1_of(store.pool(), store.table()), "it is what the calls make today");
    bench.write("s", &old);
    let held = [(0, 2, 1), (0, 3, 2), (0, 4, 3), (0, 5, 4), (2, 1, 5), (2, 2, 6)];
    for (till, version, at) in held {
        assert!(bench.run(&format!("restore s {till} {version} -")).accepted().bytes == history[at].1);
    }
    for line in ["list s", "tally s", "check s", "map s", "diff s 0 4 5", "export-all s out", "retire s 0 --keep 9"] {
        assert!(matches!(bench.run(line).status, Some(0 | 5)), "{line}");
        assert_eq!(bench.read("s"), old, "{line} is no change");
    }
    bench.fed("backup s 1 -", &letters("ABC")).accepted();
    store.backup(OWNER, 1, &letters("ABC")).unwrap();
    assert_eq!(bench.read("s"), file_of(store.pool(), store.table()), "form 2, with checksums");
    for (till, version, at) in held {
        assert!(bench.run(&format!("restore s {till} {version} -")).accepted().bytes == history[at].1);
    }
    assert!(!bench.run("check s").accepted().out.contains("checksums"));
}
