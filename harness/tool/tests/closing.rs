//! All tills at closing: one call and one write for all.

mod common;
use common::{file_of, letters, Bench, Random};
use lurdempos::{Capacities, Store, OWNER};
use std::fs;
use std::os::unix::fs::MetadataExt;

/// The store `s` and some images.
fn shop(name: &str) -> Bench {
    let bench = Bench::with_store(name);
    for (name, text) in [("a", "ABCDEFGH"), ("b", "ABCDEFGZ"), ("c", "A.CDEFGZ")] {
        bench.write(name, letters(text));
    }
    bench.write("long", [1; 1_025]);
    bench.write("empty", "");
    bench
}

/// The file that single backups leave, each accepted or not.
fn singly(bench: &Bench, images: &[(u32, &str)]) -> Vec<u8> {
    let before = bench.read("s");
    bench.write("single", &before);
    images.iter().for_each(|(till, image)| drop(bench.run(&format!("backup single {till} {image}"))));
    let after = bench.read("single");
    fs::remove_file(bench.path("single")).unwrap();
    after
}

/// Which file it is, and when it was changed.
fn identity(bench: &Bench) -> (u64, i64, i64) {
    let found = fs::metadata(bench.path("s")).unwrap();
    (found.ino(), found.mtime(), found.mtime_nsec())
}

#[test]
fn all_are_kept() {
    let bench = shop("closing");
    let single = singly(&bench, &[(1, "a"), (0, "b"), (1, "c")]);
    let run = bench.run("closing s 1=a 0=b 1=c");
    let said =
        "till 1: version 1 kept, 512 bytes\ntill 0: version 1 kept, 512 bytes\ntill 1: version 2 kept, 512 bytes\n";
    assert_eq!(run.accepted().out, said);
    assert_eq!(bench.read("s"), single, "another file than that of single backups");
    for (line, text) in
        [("restore s 1 1 -", "ABCDEFGH"), ("restore s 0 1 -", "ABCDEFGZ"), ("restore s 1 2 -", "A.CDEFGZ")]
    {
        assert_eq!(bench.run(line).accepted().bytes, letters(text));
    }
    assert_eq!(bench.names(), ["a", "b", "c", "empty", "long", "s"], "no draft is left");
    bench.run("closing s 0=a --quiet").accepted();
    bench.run("list s 0").accepted().says("till 0: versions 1 to 2\n");
    // Standard input, and a name that has an equals sign.
    bench.write("x=y", letters("xy"));
    let run = bench.fed("closing s 0=- 1=x=y", &letters("Q"));
    assert_eq!(run.accepted().out, "till 0: version 3 kept, 64 bytes\ntill 1: version 3 kept, 128 bytes\n");
    assert_eq!(bench.run("restore s 0 3 -").accepted().bytes, letters("Q"));
}

#[test]
fn some_are_refused() {
    let bench = shop("closing-part");
    let images = [(0, "a"), (2, "a"), (1, "empty"), (0, "b"), (0, "c"), (0, "a"), (0, "b"), (1, "long"), (1, "c")];
    let single = singly(&bench, &images);
    let words: Vec<String> = images.iter().map(|(till, image)| format!("{till}={image}")).collect();
    let run = bench.run(&format!("closing s {}", words.join(" ")));
    assert_eq!(run.status, Some(1), "{run:?}");
    let four = "refused, 4: image empty, or longer than block size × blocks per image, \
                or lists of a message or a closing that do not fit";
    let said = format!(
        "till 0: version 1 kept, 512 bytes\ntill 2: refused, 3: till number not below the tills\ntill 1: {four}\n\
         till 0: version 2 kept, 512 bytes\ntill 0: version 3 kept, 512 bytes\ntill 0: version 4 kept, 512 bytes\n\
         till 0: refused, 11: the till holds its full number of versions\ntill 1: {four}\n\
         till 1: version 1 kept, 512 bytes\n"
    );
    assert_eq!(run.out, said);
    for words in [
        "lurdempos: till 2, a: refused, 3: till number not below the tills\nHere: there is no till 2, this store has",
        "lurdempos: till 1, empty: refused, 4: ",
        "Here: the image has 0 bytes, this store takes 1 to 1024.\nWhat to do: ",
        "lurdempos: till 0, b: refused, 11: the till holds its full number of versions\nHere: till 0 holds 4 already.\n\
         What to do: retire its oldest first: `lurdempos retire s 0 1`; ",
        "lurdempos: till 1, long: refused, 4: ",
        "lurdempos: s: 5 of 9 images are kept\nWhat to do: send the others again by themselves; ",
    ] {
        assert!(run.err.contains(words), "{words:?} is not in {run:?}");
    }
    assert_eq!(run.err.matches("lurdempos: ").count(), 5);
    assert_eq!(bench.read("s"), single, "another file than that of single backups");
    assert!(bench.drafts().is_empty());
}

/// If nothing is kept the file is not written, and stays the very one.
#[test]
fn all_are_refused() {
    let bench = shop("closing-none");
    bench.write("huge", vec![1; 70_000]);
    let (before, identity_before) = (bench.read("s"), identity(&bench));
    let run = bench.run("closing s 2=a 0=empty 1=huge 0=/dev/zero");
    assert_eq!((run.status, run.out.lines().count()), (Some(1), 4), "{run:?}");
    assert!(run.err.ends_with("lurdempos: s: no image is kept; nothing was altered\n"), "{run:?}");
    assert!(run.err.contains("till 1, huge: refused, 4: ") && run.err.contains("the image has more than 65536 bytes"));
    assert_eq!((bench.read("s"), identity(&bench)), (before, identity_before));
    // What is told on standard error is told in quiet runs too, and not kept from the status.
    let run = bench.run("closing s 2=a --quiet");
    run.fails(1, &["till 2, a: refused, 3: "]);
    // A file that is not there stops all, before anything is kept.
    bench.run("closing s 0=a 1=missing").fails(3, &["missing: cannot be read"]);
    assert_eq!(identity(&bench), identity_before);
    bench.run("closing s 0=a").accepted();
    assert_ne!(identity(&bench).0, identity_before.0);
}

#[test]
fn no_room_in_the_pool() {
    let bench = shop("closing-room");
    bench.run("init tight --tills 2 --blocks 16 --records 2 --cells 17").accepted();
    let run = bench.run("closing tight 0=a 1=b 1=c 0=a");
    assert_eq!(run.status, Some(1), "{run:?}");
    run.says("till 1: version 1 kept").says("till 1: refused, 14: ").says("till 0: version 2 kept");
    assert!(run.err.contains("this image does not fit beside the others into the store's 2 segment records"));
}

#[test]
fn sixteen_and_no_more() {
    let bench = shop("closing-many");
    bench.run("init all --blocks 16 --records 64 --cells 256").accepted();
    let words: Vec<String> = (0..16).rev().map(|till| format!("{till}=a")).collect();
    let run = bench.run(&format!("closing all {}", words.join(" ")));
    assert_eq!(run.accepted().out.lines().count(), 16);
    assert!(run.out.starts_with("till 15: ") && run.out.ends_with("till 0: version 1 kept, 512 bytes\n"));
    let before = bench.read("all");
    let many =
        "Here: these are 18 images, and one closing takes 16 at most; none of them is kept.\nWhat to do: make several";
    let run = bench.run(&format!("closing all {} 0=a 1=b", words.join(" ")));
    run.fails(1, &["refused, 4: ", many]);
    assert_eq!(bench.read("all"), before);
    // The store comes first: a file that is none is told of before.
    bench.run(&format!("closing a {} 0=a 1=b", words.join(" "))).fails(3, &["not a store's file"]);
}

#[test]
fn a_folder_of_images() {
    let bench = shop("closing-folder");
    bench.run("init all --blocks 16 --records 64 --cells 256").accepted();
    fs::create_dir(bench.path("day")).unwrap();
    for (name, image) in [("0", "a"), ("2.img", "b"), ("10.monday.img", "c"), ("11.", "a")] {
        fs::copy(bench.path(image), bench.path(&format!("day/{name}"))).unwrap();
    }
    std::os::unix::fs::symlink("../b", bench.path("day/1.img")).unwrap();
    let run = bench.run("closing all --folder day");
    let said: String = [0, 1, 2, 10, 11].map(|till| format!("till {till}: version 1 kept, 512 bytes\n")).concat();
    assert_eq!(run.accepted().out, said, "in the order of the tills");
    assert_eq!(bench.run("restore all 10 1 -").accepted().bytes, letters("A.CDEFGZ"));
    assert_eq!(bench.run("restore all 1 1 -").accepted().bytes, letters("ABCDEFGZ"));
    bench.run("closing all --folder=day/").accepted().says("till 11: version 2 kept");
    // A till that the store does not have is the store's to refuse; the others are kept.
    bench.write("day/16.img", "x");
    let run = bench.run("closing all --folder day");
    assert_eq!(run.status, Some(1));
    run.says("till 11: version 3 kept, 512 bytes\ntill 16: refused, 3: till number not below the tills\n");
    assert!(run.err.contains("lurdempos: till 16, day/16.img: refused, 3: "), "{run:?}");
}

/// Whatever else lies in the folder is wrong use, and named, and nothing is kept.
#[test]
fn folders_that_are_no_day() {
    let bench = shop("closing-folders");
    let before = bench.read("s");
    let wrong = |name: &str, words: &str| {
        fs::create_dir(bench.path("day")).unwrap();
        bench.write("day/0.img", "x");
        match name.strip_suffix('/') {
            Some(folder) => fs::create_dir(bench.path(&format!("day/{folder}"))).unwrap(),
            None => bench.write(&format!("day/{name}"), "x"),
        }
        let told = format!("lurdempos: day/{}{words}; nothing was kept\nWhat to do: ", name.trim_end_matches('/'));
        bench.run("closing s --folder day").fails(2, &[&told]);
        bench.run("closing s --folder day --dry-run").fails(2, &[&told]);
        fs::remove_dir_all(bench.path("day")).unwrap();
    };
    let names =
        ["till1.img", "01.img", "1-front.img", "1 .img", "+1.img", ".img", ".1.img", "1img", "one", "4294967296"];
    names.iter().for_each(|name| wrong(name, ": not named by a till's number"));
    wrong("1/", ": not a regular file");
    wrong("1.img/", ": not a regular file");
    wrong("0", " and day/0.img are both of till 0");
    fs::create_dir(bench.path("day")).unwrap();
    bench.run("closing s --folder day").fails(2, &["lurdempos: day: has no image; nothing was kept"]);
    std::os::unix::fs::symlink("nowhere", bench.path("day/1")).unwrap();
    bench.run("closing s --folder day").fails(2, &["day/1: not a regular file"]);
    bench.run("closing s --folder none").fails(3, &["none: cannot be read"]);
    bench.run("closing s --folder a").fails(3, &["a: cannot be read"]);
    assert_eq!(bench.read("s"), before);
}

#[test]
fn dry_runs() {
    let bench = shop("closing-dry");
    let before = bench.read("s");
    let run = bench.run("closing s 0=a 1=b --dry-run");
    let said = "till 0: version 1 would be kept, 512 bytes\ntill 1: version 1 would be kept, 512 bytes\n\
                cells 0 before, 16 after, of 64\n";
    assert_eq!(run.accepted().out, said);
    let run = bench.run("closing s 0=a 2=b --dry-run");
    assert_eq!(run.status, Some(1), "{run:?}");
    run.says("till 2: would be refused, 3: till number not below the tills\ncells 0 before, 8 after, of 64\n");
    assert!(run.err.ends_with("lurdempos: s: 1 of 2 images would be kept\n"), "{run:?}");
    // A dry run needs no lock.
    let store = fs::File::open(bench.path("s")).unwrap();
    store.lock().unwrap();
    bench.run("closing s 0=a --dry-run").accepted();
    bench.run("closing s 0=a --wait 0").fails(4, &["being written by another process"]);
    store.unlock().unwrap();
    assert_eq!(bench.read("s"), before);
    bench.run("closing s 0=a 1=b").accepted();
    bench.run("tally s").accepted().says("cells          16 of 64");
}

#[test]
fn for_programs() {
    let bench = shop("closing-json");
    let told = bench.run("closing s 0=a 1=b --json").accepted().out.clone();
    let expected = "{\"file\": \"s\", \"images\": [\n  \
                    {\"till\": 0, \"image\": \"a\", \"bytes\": 512, \"version\": 1, \"refusal\": null},\n  \
                    {\"till\": 1, \"image\": \"b\", \"bytes\": 512, \"version\": 1, \"refusal\": null}], \
                    \"kept\": 2, \"dry_run\": false, \"cells\": null}\n";
    assert_eq!(told, expected);
    let run = bench.run("closing s 2=a 1=/dev/zero 0=c --dry-run --json");
    assert_eq!(run.status, Some(1), "{run:?}");
    run.says("{\"till\": 2, \"image\": \"a\", \"bytes\": 512, \"version\": null, \"refusal\": 3},")
        .says("{\"till\": 1, \"image\": \"/dev/zero\", \"bytes\": null, \"version\": null, \"refusal\": 4},")
        .says("\"version\": 2, \"refusal\": null}], \"kept\": 1, \"dry_run\": true, \"cells\": {\"before\": 16, \"after\": 17,");
    bench.run("closing s 0=missing --json").fails(3, &["missing: cannot be read"]);
}

#[test]
fn the_help_tells_it_all() {
    let bench = Bench::new("closing-help");
    let help = bench.run("closing --help");
    help.accepted().says("Usage: lurdempos closing FILE [TILL=IMAGE...] [OPTIONS]\n").says("  --folder DAY         ");
    ["Up to 16", "3.img", "does not stop the others", "exit status is 1", "There is no --rotate"]
        .iter()
        .for_each(|words| assert!(help.out.contains(words), "{words}"));
    let overview = bench.run("--help");
    overview.accepted().says("  closing FILE [TILL=IMAGE...]       keep the images of several tills in one write\n");
    overview.says("nothing is altered; but `closing` keeps those of its images that are not refused.\n");
}

/// Many random closings; the file is the library's store after each.
#[test]
fn as_the_library_has_it() {
    let bench = Bench::new("closing-random");
    bench.run("init s --tills 4 --versions 6 --image-bytes 1000 --records 60 --cells 300").accepted();
    let mut store = Store::new(Capacities::new(4, 6, 16, 60, 300)).unwrap();
    let mut random = Random(3);
    let (mut kept, mut refused) = (0, 0);
    for _ in 0..40 {
        let count = 1 + random.below(8);
        let mut images = Vec::new();
        for n in 0..count {
            let blocks = random.below(18);
            let image: Vec<u8> = (0..blocks).flat_map(|_| [random.below(9) as u8; 64]).collect();
            bench.write(&format!("image{n}"), &image);
            images.push((random.below(5) as u32, image));
        }
        let words: String = (0..count).map(|n| format!(" {}=image{n}", images[n].0)).collect();
        let run = bench.run(&format!("closing s{words}"));
        let lent: Vec<(u32, &[u8])> = images.iter().map(|(till, image)| (*till, &image[..])).collect();
        let each = store.backup_all(OWNER, &lent).unwrap();
        assert_eq!(run.status, Some(each.iter().any(Result::is_err) as i32), "{run:?}");
        for (line, (answer, (till, image))) in run.out.lines().zip(each.iter().zip(&images)) {
            let told = match answer {
                Ok(version) => format!("till {till}: version {version} kept, {} bytes", image.len()),
                Err(refusal) => format!("till {till}: {refusal}"),
            };
            assert_eq!(line, told);
        }
        let accepted = each.iter().filter(|answer| answer.is_ok()).count();
        (kept, refused) = (kept + accepted, refused + count - accepted);
        assert_eq!((run.out.lines().count(), bench.read("s")), (count, file_of(store.pool(), store.table())));
        let till = random.below(4);
        bench.run(&format!("retire s {till} --keep 2")).accepted();
        while let Ok(listing) = store.listing(OWNER, till as u32) {
            let held =
                (listing.oldest..=listing.newest).filter(|&version| store.image(OWNER, till as u32, version).is_ok());
            if held.count() <= 2 {
                break;
            }
            store.retire(OWNER, till as u32, listing.oldest).unwrap();
        }
    }
    assert!(kept > 30 && refused > 30, "{kept} kept, {refused} refused");
}
