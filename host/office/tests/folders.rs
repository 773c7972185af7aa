//! Whole folders put into a volume and got back, byte for byte.

mod tool;

use calls::layout::ROOT;
use reference::random::Random;
use samples::map_of;
use tool::Folder;

/// Sizes that reach each limit, then random ones; the total fits 4,096 pages.
fn sizes(random: &mut Random) -> Vec<usize> {
    let mut sizes = vec![
        0, 1, 511, 512, 513, 4_095, 4_096, 4_097, 16_384, 65_535, 65_536, 0,
    ];
    sizes.extend((0..118).map(|_| match random.below(4) {
        0 => random.below(30_000) as usize,
        _ => random.below(9_000) as usize,
    }));
    sizes
}

#[test]
fn a_folder_comes_back_as_it_went() {
    let folder = Folder::new("folder");
    let mut random = Random::new(7);
    let mut total = 0;
    for (number, size) in sizes(&mut random).into_iter().enumerate() {
        folder.write(format!("day/file {number}"), &random.bytes(size));
        total += size as u64;
    }
    let names = folder.names("day");
    assert_eq!(names.len(), 130);
    folder.says(
        &["format", "v", "--pages", "4096", "--inodes", "256"],
        "4,096 pages, 256 inodes; 4,063 pages free\n",
    );

    let put = folder.office(&["put", "v", "day", "--progress"]);
    let bytes = office::text::thousands(total);
    assert_eq!(put.status, 0);
    let said = String::from_utf8(put.out).expect("text");
    assert!(
        said.starts_with(&format!("130 files put, {bytes} bytes; ")),
        "{said}"
    );
    let last = format!("\r130 of 130 files, {bytes} bytes\n");
    assert!(put.err.ends_with(&last), "{:?}", put.err);
    assert!(put.err.starts_with("\r1 of 130 files, 0 bytes\r"));
    assert_eq!(put.err.matches('\n').count(), 1);

    let map = map_of(&folder.read("v"));
    let standing: Vec<String> = map
        .names(ROOT)
        .iter()
        .map(|(name, _)| String::from_utf8_lossy(name).into_owned())
        .collect();
    assert_eq!(standing, names, "put in byte order of the names");

    let got = folder.office(&["get", "v", "--all", "evening/files", "--progress"]);
    assert_eq!(got.status, 0);
    let said = format!("130 files copied, {bytes} bytes\n");
    assert_eq!(String::from_utf8(got.out).expect("text"), said);
    assert!(got.err.ends_with(&last), "{:?}", got.err);
    assert_eq!(folder.names("evening/files"), names);
    for name in names {
        let (went, came) = (format!("day/{name}"), format!("evening/files/{name}"));
        assert!(folder.read(&went) == folder.read(&came), "{name} differs");
    }
}

#[test]
fn progress_is_for_long_work_only() {
    let folder = Folder::with_volume("progress", 256, 8);
    folder.write("short", &[1; 16_384]);
    folder.write("long", &[1; 16_385]);
    let short = folder.office(&["put", "v", "short", "--progress"]);
    assert_eq!((short.status, short.err.as_str()), (0, ""));
    let long = folder.office(&["put", "v", "long", "--progress"]);
    let line = "\r0 of 1 files, 4,096 bytes\r0 of 1 files, 8,192 bytes\r0 of 1 files, 12,288 bytes\
                \r0 of 1 files, 16,384 bytes\r0 of 1 files, 16,385 bytes\r1 of 1 files, 16,385 bytes\n";
    assert_eq!((long.status, long.err.as_str()), (0, line));
    let silent = folder.office(&["put", "v", "short", "long"]);
    assert_eq!((silent.status, silent.err.as_str()), (0, ""), "no terminal");
}

#[test]
fn an_error_stands_on_a_line_of_its_own() {
    let folder = Folder::with_volume("progress-error", 40, 8);
    folder.write("day/a", &[1; 4_096]);
    folder.write("day/b", &[2; 40_000]);
    let ran = folder.office(&["put", "v", "day", "--progress"]);
    let lines: Vec<&str> = ran.err.lines().collect();
    assert_eq!(ran.status, 1);
    assert_eq!(
        lines,
        [
            "\r0 of 2 files, 4,096 bytes\r1 of 2 files, 4,096 bytes",
            "office: in the volume: a",
            "office: not put: b",
            "office: b: refused 12 (no space); cleaning logs gives back too little; \
             remove files with 'office rm v NAME', or take a larger volume",
        ]
    );
}
