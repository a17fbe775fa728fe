//! What the programs say, and their exit status.

use std::process::Output;
use trials::{gearbox, mechanic, run, said, shuttle_map, told, Bench, Folder};

fn ended(output: &Output, status: i32, words: &str) {
    let said = said(output);
    assert_eq!(output.status.code(), Some(status), "{said}");
    assert!(said.contains(words), "{said}");
}

/// The words of a read or a write that succeeds, and what is told of it.
const SUCCEED: [(&str, &str); 14] = [
    ("read 2110:0", "read 2110:0: 4096 bytes, CRC-32 D6C78A19"),
    ("write 2101:0 --text Anna", "wrote 2101:0: 4 bytes"),
    ("read 2101:0", "41 6E 6E 61 \"Anna\""),
    ("write 2100:0 --hex D007", "wrote 2100:0: 2 bytes"),
    ("read 2100:0", "D0 07"),
    ("read 2110:0 --lose 1", MAP),
    ("read 2110:0 --lose 2", MAP),
    ("read 2110:0 --lose 3", MAP),
    ("read 2110:0 --lose 4", MAP),
    ("read 2110:0 --lose-sent 1,2,3", MAP),
    ("read 2110:0 --repeat 1", MAP),
    ("read 2110:0 --repeat 2", MAP),
    ("read 2110:0 --repeat 3", MAP),
    ("read 2110:0 --delay 2,3,4:700", MAP),
];
const MAP: &str = "4096 bytes, CRC-32 D6C78A19";

/// Those of one that is aborted, and the words.
const ABORTED: [(&str, &str); 5] = [
    ("read 3000:0", "06020000: the object does not exist"),
    ("read 2110:1", "06090011: the sub-index does not exist"),
    ("write 1008:0 --text x", "06010002: the object is read-only"),
    ("write 2100:0 --hex D0", "06070013: the data is too short"),
    ("write 2100:0 --hex D00700", "06070010: the data's length"),
];

#[test]
fn a_mechanic_reads_and_writes() {
    let folder = Folder::create();
    let bench = Bench::start(&gearbox(&folder), &folder.path("recording"), &[]);
    for (words, due) in SUCCEED {
        let output = mechanic(
            bench.address,
            &format!("{words} --timeout 400 --attempts 10"),
        );
        assert!(output.status.success(), "{words}: {}", said(&output));
        assert!(told(&output).contains(due), "{}", told(&output));
    }
    for (words, due) in ABORTED {
        ended(&mechanic(bench.address, words), 1, due);
    }
    bench.end();
}

#[test]
fn a_mechanic_says_what_is_wrong() {
    let folder = Folder::create();
    let map = folder.path("map");
    std::fs::write(&map, shuttle_map()).unwrap();
    let nobody = "127.0.0.1:1".parse().unwrap();
    let words = format!("write 2110:0 --file {}", map.display());
    ended(&mechanic(nobody, &words), 1, "one frame holds 1484 bytes");
    ended(&mechanic(nobody, "read 2110"), 2, "usage: mechanic");
    let words = "read 2110:0 --timeout 20 --retries 1";
    ended(&mechanic(nobody, words), 1, "nobody listens there");
}

#[test]
fn a_bench_says_what_is_wrong() {
    let folder = Folder::create();
    ended(&run("bench", &[]), 2, "--image is needed");
    ended(&run("bench", &["--port", "x"]), 2, "not 'x'");
    ended(
        &run("bench", &["--image", "/absent"]),
        1,
        "/absent cannot be read",
    );
    let image = folder.path("unsound.image");
    std::fs::write(&image, [1, 0]).unwrap();
    let words = ["--image", image.to_str().unwrap()];
    ended(&run("bench", &words), 1, "no sound dictionary image");
    let image = gearbox(&folder);
    let record = folder.path("recording");
    let words = [
        "--image",
        image.to_str().unwrap(),
        "--record",
        record.to_str().unwrap(),
    ];
    let overwrite = [&words[..], &["--overwrite", "3000:0:5"]].concat();
    ended(&run("bench", &overwrite), 1, "has no object 3000:0");
    assert!(!record.exists());
    let bench = Bench::start(&image, &record, &[]);
    let port = bench.address.port().to_string();
    let other = folder.path("other");
    let same = [
        "--image",
        image.to_str().unwrap(),
        "--port",
        &port,
        "--record",
    ];
    let same: Vec<&str> = same.into_iter().chain(other.to_str()).collect();
    ended(&run("bench", &same), 1, "cannot be listened at");
    assert!(!other.exists());
}

#[test]
fn an_image_is_made_or_the_fault_is_named() {
    let folder = Folder::create();
    let (text, image) = (folder.path("own.txt"), folder.path("own.image"));
    let make = [
        "make",
        text.to_str().unwrap(),
        "-o",
        image.to_str().unwrap(),
    ];
    std::fs::write(&text, "1008 0 fixed 4 \"abc\"\n").unwrap();
    ended(&run("image", &make), 1, "own.txt:1:16: a value of 3 bytes");
    assert!(!image.exists());
    std::fs::write(&text, "1008 0 fixed 3 \"abc\"\n").unwrap();
    assert!(run("image", &make).status.success());
    let shown = run("image", &["show", image.to_str().unwrap()]);
    assert!(told(&shown).contains("1008:0  fixed"), "{}", told(&shown));
    let unsound = run("image", &["show", text.to_str().unwrap()]);
    ended(&unsound, 1, "not sound");
    ended(&run("image", &["make"]), 2, "usage: image");
    ended(
        &run("image", &["show", "/absent"]),
        1,
        "/absent cannot be read",
    );
}
