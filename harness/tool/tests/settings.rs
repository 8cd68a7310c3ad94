//! Stores with other block sizes, segments and rebuild percentages than the page's: all commands go by the store's own.

mod common;
use common::{file_of, form_1_of, kept_file, salvage_at_random, salvage_heads, salvaged, Bench, Held};
use lurdempos::{Capacities, Store, BLOCK_BYTES, OWNER, SEGMENT_BLOCKS};

/// Bytes of a block, blocks of a segment, rebuild percentage: the largest with the least, the least with the largest.
const SETTINGS: [[u32; 3]; 2] = [[512, 16, 0], [64, 4, 100]];

fn capacities(settings: [u32; 3]) -> Capacities {
    Capacities::new(2, 6, 40, 64, 600).measured(settings)
}

fn options([bytes, blocks, percent]: [u32; 3]) -> String {
    format!("--block-bytes {bytes} --segment-blocks {blocks} --rebuild-percent {percent}")
}

/// An image of blocks of this store, each filled with a letter; a dot is a block of zeros, a hash one of 255s. The last is cut.
fn image(settings: [u32; 3], text: &str) -> Vec<u8> {
    let block = settings[0] as usize;
    let byte = |letter| match letter {
        b'.' => 0,
        b'#' => 255,
        letter => letter,
    };
    let mut image: Vec<u8> = text.bytes().flat_map(|letter| vec![byte(letter); block]).collect();
    image.truncate(image.len() - 5);
    image
}

const TEXTS: [(u32, &str); 7] = [
    (0, "ABCDEFGHIJKLMNOPQRSTUVWXYZ"),
    (1, "ABCDEFGHIJKLMNOPQRSTUVWX.."),
    (0, "ABCDEFGHIJKLMNOPQRSTUVWXY!"),
    (0, "ABxDEFGHIJKLMNO.QRSTUVWXY!ab"),
    (1, "ABCDEFGHIJKLMNOPQRSTUVWXYZc##f#h"),
    (0, "ABxDEFG"),
    (0, "BxDEFGHAAB"),
];

/// Each version held.
fn held(settings: [u32; 3]) -> Vec<Held> {
    let mut last = [0; 2];
    let number = |(till, text): (u32, &str)| {
        last[till as usize] += 1;
        (till, last[till as usize], image(settings, text))
    };
    TEXTS.map(number).into()
}

fn store(settings: [u32; 3]) -> Store {
    let mut store = Store::new(capacities(settings)).unwrap();
    for (till, _, image) in held(settings) {
        store.backup(OWNER, till, &image).unwrap();
    }
    store
}

/// The same made with the tool.
fn bench_with_store(name: &str, settings: [u32; 3]) -> Bench {
    let bench = Bench::new(&format!("settings-{name}-{}", settings[0]));
    let sizes = "--tills 2 --versions 6 --blocks 40 --records 64 --cells 600";
    bench.run(&format!("init s {sizes} {}", options(settings))).accepted();
    for (till, version, image) in held(settings) {
        let kept = bench.fed(&format!("backup s {till} -"), &image);
        kept.accepted().says(&format!("till {till}: version {version} kept, {} bytes\n", image.len()));
    }
    bench
}

fn restored(bench: &Bench, file: &str, held: &[Held]) {
    for (till, version, image) in held {
        let run = bench.run(&format!("restore {file} {till} {version} -"));
        assert!(run.accepted().bytes == *image, "{file}: version {version} of till {till}");
    }
}

/// Init, backup, restore and retire: the file is the library's store after each.
#[test]
fn the_file_is_the_librarys() {
    for settings in SETTINGS {
        let bench = bench_with_store("file", settings);
        let mut store = store(settings);
        assert!(bench.read("s") == file_of(store.pool(), store.table()));
        restored(&bench, "s", &held(settings));
        for version in 1..=3 {
            bench.run(&format!("retire s 0 {version}")).accepted();
            store.retire(OWNER, 0, version).unwrap();
            assert!(bench.read("s") == file_of(store.pool(), store.table()));
        }
        let left: Vec<_> = held(settings).into_iter().filter(|(till, version, _)| *till == 1 || *version > 3).collect();
        restored(&bench, "s", &left);
    }
}

#[test]
fn words_and_fields_go_by_the_store() {
    for settings in SETTINGS {
        let bench = bench_with_store("words", settings);
        let ([bytes, blocks, percent], store) = (settings, store(settings));
        let words = format!("blocks of {bytes} bytes, segments of {blocks} blocks, rebuild at {percent} percent\n");
        bench.run("check s").accepted().says(&format!("of up to {} bytes, 64 records, 600 cells, {words}", 40 * bytes));
        let cells = store.tally(OWNER).unwrap().cells;
        let tallied = bench.run("tally s");
        let line = format!(" as whole images, {} bytes in cells\nsettings          {words}", bytes * cells);
        tallied.accepted().says(&line);
        let fields = format!(
            "\"capacities\": {{\"tills\": 2, \"versions\": 6, \"blocks\": 40, \"records\": 64, \"cells\": 600, \
             \"block_bytes\": {bytes}, \"segment_blocks\": {blocks}, \"rebuild_percent\": {percent}}}}}\n"
        );
        for line in ["tally s --json", "list s --json", "list s 1 --json", "check s --json"] {
            bench.run(line).accepted().says(&fields);
        }
    }
}

/// What `list` and `map` read from the words is what the library answers.
#[test]
fn lists_and_maps_are_the_librarys() {
    for settings in SETTINGS {
        let bench = bench_with_store("list", settings);
        let (store, listed) = (store(settings), bench.run("list s --json").out);
        for (till, version, image) in held(settings) {
            let hops = store.restore(OWNER, till, version, &mut vec![0; 40 * 512]).unwrap().hops;
            let (undated, length) = ("\"day\": 0, \"date\": null", image.len());
            let line = format!("{{\"version\": {version}, {undated}, \"bytes\": {length}, \"chain\": {hops},");
            let part = listed.split("{\"till\": ").find(|part| part.starts_with(&format!("{till},"))).unwrap();
            assert!(part.contains(&line), "till {till}: {line} is not in {part}");
            let blocks = || image.chunks(settings[0] as usize);
            let [null, blank] =
                [0, 255].map(|byte| blocks().filter(|block| block.iter().all(|&one| one == byte)).count());
            let line = part.lines().find(|one| one.contains(&line)).unwrap();
            assert!(line.contains(&format!("\"null\": {null}, \"blank\": {blank}}}")), "{line}");
        }
        let tally = store.tally(OWNER).unwrap();
        let numbers = bench.run("map s --json");
        numbers.accepted().says(&format!("\"cells\": 600, \"free\": {},", 600 - tally.cells));
        numbers.says(&format!("\"records\": {{\"of\": 64, \"in_use\": {},", tally.records));
        let each = if settings[1] == 16 { "sixteen" } else { "four" };
        bench.run("map s").accepted().says(&format!(" whole; {each} positions each<"));
    }
}

#[test]
fn an_undamaged_file_is_salvaged() {
    for settings in SETTINGS {
        let bench = bench_with_store("whole", settings);
        bench.run("salvage s out").accepted().says("s: every checksum holds\n").says("7 versions: 7 certain\n");
        assert_eq!(salvaged(&bench, "out", &held(settings)), (7, 0));
        let store = store(settings);
        bench.write("old", form_1_of(store.pool(), store.table()));
        bench.run("salvage old out-old").says("7 versions: 7 unchecked\n");
        for (till, version, image) in held(settings) {
            assert!(bench.read(&format!("out-old/till-{till}-version-{version}.unchecked.img")) == image);
        }
    }
}

/// A damaged cell makes doubtful what is made of it; a pointer that leads nowhere leaves a block of zeros.
#[test]
fn a_damaged_file_is_salvaged() {
    for settings in SETTINGS {
        let bench = bench_with_store("damaged", settings);
        let (store, block) = (store(settings), settings[0] as usize);
        let good = bench.read("s");
        let mut bytes = good.clone();
        let cell = store.pool().chunks(block).position(|cell| cell[..block - 5].iter().all(|&byte| byte == b'c'));
        bytes[32 + block * cell.unwrap() + 7] ^= 16;
        bench.write("s", &bytes);
        bench.run("restore s 1 2 -").fails(3, &["damaged: "]);
        let run = bench.run("salvage s out");
        assert_eq!(run.status, Some(5));
        run.says(&format!("till-1-version-2.doubtful.img: {} bytes, doubtful; ", 32 * block - 5));
        let (certain, others) = salvaged(&bench, "out", &held(settings));
        assert!(certain > 0 && certain + others == 7, "{run:?}");

        let mut bytes = good.clone();
        let pointer = 8 + (4 + 6 * 43) + 4 + 43 + 3 + 1; // block 1 of version 2 of till 1
        bytes[32 + store.pool().len() + 4 * pointer + 2] = 255;
        bench.write("s", &bytes);
        let run = bench.run("salvage s lost");
        let missing = format!("bytes {block} to {} could not be traced and are zeros", 2 * block - 1);
        run.says("till-1-version-2.incomplete.img: ").says(&missing);
        assert_eq!(salvaged(&bench, "lost", &held(settings)).1 + salvaged(&bench, "lost", &held(settings)).0, 7);
    }
}

/// One flipped bit in the head or in the table's header: the lengths tell what it was. The rebuild percentage alone
/// they do not tell; no image hangs on it.
#[test]
fn damaged_settings_are_worked_out() {
    for settings in SETTINGS {
        let (bench, store) = (Bench::new(&format!("settings-head-{}", settings[0])), store(settings));
        salvage_heads(&bench, &file_of(store.pool(), store.table()), |run, folder, at| {
            run.says("7 versions: ");
            let (certain, others) = salvaged(&bench, folder, &held(settings));
            assert_eq!(certain + others, 7, "byte {at}");
            assert!(at >= 32 || others == 0, "byte {at}");
        });
    }
}

#[test]
fn random_damage() {
    for settings in SETTINGS {
        let (bench, store) = (Bench::new(&format!("settings-random-{}", settings[0])), store(settings));
        let mut met = 0;
        salvage_at_random(&bench, &file_of(store.pool(), store.table()), 6, 40, |run, folder| {
            if run.status != Some(3) {
                met += salvaged(&bench, folder, &held(settings)).0;
            }
        });
        assert!(met > 20, "{met}");
    }
}

/// The new store has the old one's settings, unless others are asked for.
#[test]
fn stores_grow() {
    for settings in SETTINGS {
        let bench = bench_with_store("grow", settings);
        let [bytes, blocks, percent] = settings;
        let words = format!("blocks of {bytes} bytes, segments of {blocks} blocks, rebuild at {percent} percent\n");
        bench.run("grow s larger").accepted().says("128 records, 1200 cells").says(&words);
        restored(&bench, "larger", &held(settings));
        bench.run("grow s wide --tills 16").accepted().says("16 tills").says(&words);
        for bytes in BLOCK_BYTES {
            for blocks in SEGMENT_BLOCKS {
                let new = format!("n-{bytes}-{blocks}");
                let sizes = "--records 4096 --cells 32768";
                let run = bench.run(&format!("grow s {new} {sizes} {}", options([bytes, blocks, 20])));
                let most = (40 * settings[0]).next_multiple_of(bytes);
                run.accepted().says(&format!("7 versions of s, 2 tills x 6 versions of up to {most} bytes"));
                restored(&bench, &new, &held(settings));
            }
        }
        // With the page's settings no word is said of them.
        assert!(!bench.run("check n-64-8").accepted().out.contains("segments of"));
        let wrong = [
            ("--block-bytes 0", "--block-bytes 0, but 64, 128, 256 or 512 can be had"),
            ("--block-bytes 100", "--block-bytes 100, but 64, 128, 256 or 512 can be had"),
            ("--segment-blocks 32", "--segment-blocks 32, but 4, 8 or 16 can be had"),
            ("--rebuild-percent 101", "--rebuild-percent 101, but 0 to 100 can be had"),
        ];
        for (option, words) in wrong {
            let run = bench.run(&format!("grow s no {option}"));
            run.fails(1, &["refused, 1: ", words, "What to do: choose each from"]);
        }
        assert!(!bench.names().contains(&"no".to_string()));
    }
}

/// Images and blocks go by the block size: the default image has the same bytes whatever it is.
#[test]
fn lengths_go_by_the_block_size() {
    let bench = Bench::new("settings-lengths");
    for bytes in BLOCK_BYTES {
        let (blocks, option) = (33_280 / bytes, format!("--block-bytes {bytes}"));
        bench.run(&format!("init a{bytes} {option} --json")).accepted().says(&format!("\"blocks\": {blocks},"));
        let run = bench.run(&format!("init b{bytes} {option} --image-bytes 1025 --json"));
        run.accepted().says(&format!("\"blocks\": {},", 1025u32.div_ceil(bytes)));
        let run = bench.run(&format!("init c{bytes} {option} --blocks {}", 65_536 / bytes));
        run.accepted().says("of up to 65536 bytes");
    }
}

/// The largest file that there is: 512 bytes and 16 blocks.
#[test]
fn the_largest_store() {
    let bench = Bench::new("settings-largest");
    bench.run("init s --block-bytes 512 --segment-blocks 16 --image-bytes 65536").accepted();
    assert_eq!(bench.read("s").len(), 18_027_304);
    let image: Vec<u8> = (0..65_536u32).map(|n| (n / 512 * 7 + n % 251) as u8).collect();
    bench.fed("backup s 15 -", &image).accepted();
    assert!(bench.run("restore s 15 1 -").accepted().bytes == image);
    bench.fed("backup s 0 -", &[1; 65_537]).fails(1, &["refused, 4: ", "block size", "takes 1 to 65536"]);
    bench.shell("head -c 600 /dev/zero >> s").accepted();
    bench.run("check s").fails(3, &["too long for a store: it has 18027904 bytes, the largest store has 18027304"]);
}

/// In an empty store that is too small the refusal tells what the image takes, by the store's own measures.
#[test]
fn what_an_image_takes() {
    let bench = Bench::new("settings-takes");
    for (settings, records) in [([512, 16, 0], 2), ([64, 4, 100], 5)] {
        let file = format!("s{}", settings[0]);
        let sizes = "--tills 1 --blocks 20 --records 1 --cells 30";
        let made = bench.run(&format!("init {file} {sizes} {}", options(settings)));
        assert_eq!(made.status, Some(0));
        let words = format!("with different blocks fits: it takes {records} records and 20 cells");
        assert!(made.err.contains(&words), "{made:?}");
        let run = bench.fed(&format!("backup {file} 0 -"), &image(settings, "ABCDEFGHIJKLMNOPQRST"));
        run.fails(1, &["refused, 14: ", &format!("at least `--records {records} --cells 20`")]);
    }
}

/// Files that the tool made before there were settings have zeros for them: they are read, used on, and grow.
#[test]
fn earlier_files_go_on() {
    let bench = Bench::new("settings-earlier");
    let fields = "\"block_bytes\": 64, \"segment_blocks\": 8, \"rebuild_percent\": 20}";
    for name in ["form1-empty.lur", "form1-versions.lur"] {
        bench.write(name, kept_file(name));
        bench.run(&format!("tally {name} --json")).accepted().says(fields);
        bench.fed(&format!("backup {name} 1 -"), &[7; 900]).accepted().says("version 1 kept");
        assert!(bench.run(&format!("restore {name} 1 1 -")).accepted().bytes == [7; 900]);
        bench.run(&format!("check {name}")).accepted();
        let wide = options([256, 16, 50]);
        bench.run(&format!("grow {name} {name}-new {wide}")).accepted();
        assert!(bench.run(&format!("restore {name}-new 1 1 -")).accepted().bytes == [7; 900]);
        bench.run(&format!("retire {name} 1 1")).accepted();
    }
}
