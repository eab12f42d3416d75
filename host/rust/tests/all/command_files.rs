//! The files that the command writes: places that are one, read-only files, temporary files, standard output by its paths.

use std::fs;
use std::os::unix::fs::{symlink, PermissionsExt};
use std::path::PathBuf;

use crate::common::packets;
use crate::live::{names, script, script_refused};
use crate::running::{folder, ok, options};
use second::random::Random;
use warintaya::{Coder, Layer};

const SETTINGS: [&str; 4] = ["1", "qpsk", "1/2", "1"];

/// A run with those settings over the file `stream`, for a shell.
const CODE: &str = "$W code $S -i stream";

/// A folder with the file `stream` of two frames, and their carriers.
fn with_stream(name: &str, seed: u64) -> (PathBuf, Vec<u8>) {
    let folder = folder(name);
    let stream = packets(&mut Random::new(seed), 24);
    fs::write(folder.join("stream"), &stream).unwrap();
    (
        folder,
        ok(&options("code", SETTINGS, &["--exact"]), &stream),
    )
}

/// The record of those settings before any frame.
fn record() -> Vec<u8> {
    let layer = Layer::new(1, 2, 1, 1).unwrap();
    Coder::new(layer).record().to_vec()
}

/// Calls that write to `x` and to another place, which is the same.
fn twice(other: &str) -> [String; 7] {
    let two = "$W code --mode 1 --layer A=qpsk,1/2,1 --layer B=qpsk,1/2,1 -i A=stream -i B=stream";
    let replace = "$W replace -i stream --packet 0 --old stream --new stream";
    [
        format!("{CODE} -o x --state {other}"),
        format!("{CODE} -o {other} --state x"),
        format!("{CODE} -o .x.lock --state {other}"),
        format!("$W back --state {other} -i stream -o x"),
        format!("{replace} --state {other} -o x"),
        format!("{two} -o A=x -o B={other}"),
        format!("{two} -o A=a -o B={other} --state x"),
    ]
}

/// A state and an output, or two outputs, in one place: refused in every form, with the place there and not there, as garbage and
/// as a good record, and left as they were.
#[test]
fn one_place_is_not_written_twice() {
    let (folder, carriers) = with_stream("files-apart", 61);
    for (link, to) in [("link", "x"), ("chain", "link"), ("here", ".")] {
        symlink(to, folder.join(link)).unwrap();
    }
    let record = record();
    let others = [
        "x",
        "./x",
        "$PWD/x",
        "here/x",
        "link",
        "chain",
        "../files-apart/x",
    ];
    for there in [None, Some(&carriers), Some(&record)] {
        if let Some(bytes) = there {
            fs::write(folder.join("x"), bytes).unwrap();
        }
        let before = names(&folder);
        for text in others.iter().flat_map(|other| twice(other)) {
            let (status, written, said) = script(&folder, &text);
            let told = said.contains("is to be written twice");
            assert!(status == 2 && written.is_empty() && told, "{text}: {said}");
        }
        assert_eq!(names(&folder), before);
        assert_eq!(fs::read(folder.join("x")).ok().as_ref(), there);
    }
    // other names of one folder are apart
    let apart = format!("rm x; {CODE} --exact -o x --state y");
    assert_eq!(script(&folder, &apart).0, 0);
    assert!(fs::read(folder.join("x")).unwrap() == carriers);
}

/// A link to a file that isn't there yet stays, and the file is written.
#[test]
fn what_a_link_points_to_is_written() {
    let (folder, carriers) = with_stream("files-link", 62);
    symlink("later", folder.join("link")).unwrap();
    for _ in ["made", "replaced"] {
        assert_eq!(script(&folder, &format!("{CODE} --exact -o link")).0, 0);
        assert!(fs::read(folder.join("later")).unwrap() == carriers);
        assert!(fs::symlink_metadata(folder.join("link"))
            .unwrap()
            .is_symlink());
    }
}

/// The temporary file is a new one: what has its name, a link or a file, is left as it is.
#[test]
fn temporary_files_are_new_ones() {
    let (folder, carriers) = with_stream("files-temporary", 63);
    fs::write(folder.join("victim"), "of value").unwrap();
    for taken in [
        "ln -s victim .out.$$",
        "ln -s nothing .out.$$",
        "cp victim .out.$$",
    ] {
        let text = format!("rm -f .out.*; {taken}; exec {CODE} --exact -o out");
        let (status, _, said) = script(&folder, &text);
        assert_eq!(status, 0, "{text}: {said}");
        assert_eq!(fs::read(folder.join("victim")).unwrap(), b"of value");
        assert!(!folder.join("nothing").exists());
        assert!(fs::read(folder.join("out")).unwrap() == carriers);
        // the file or link of that name is there, and nothing else
        assert_eq!(names(&folder).len(), 4, "{:?}", names(&folder));
        assert!(fs::symlink_metadata(folder.join("out")).unwrap().is_file());
    }
    let mode = |name: &str| {
        fs::metadata(folder.join(name))
            .unwrap()
            .permissions()
            .mode()
            & 0o777
    };
    fs::set_permissions(folder.join("out"), fs::Permissions::from_mode(0o640)).unwrap();
    assert_eq!(script(&folder, &format!("{CODE} --exact -o out")).0, 0);
    assert_eq!(mode("out"), 0o640);
}

/// Standard output by any of its paths is where it stands: what stood in a file before stays.
#[test]
fn standard_output_has_paths() {
    let (folder, carriers) = with_stream("files-standard", 64);
    symlink("/dev/stdout", folder.join("link")).unwrap();
    for path in ["/dev/stdout", "/dev/fd/1", "/proc/self/fd/1", "link", "-"] {
        for text in [
            format!("printf before >log; {CODE} --exact -o {path} >>log && printf behind >>log"),
            format!("{{ printf before; {CODE} --exact -o {path}; printf behind; }} >log"),
        ] {
            assert_eq!(script(&folder, &text).0, 0, "{text}");
            let whole = [b"before", &carriers[..], b"behind"].concat();
            assert!(fs::read(folder.join("log")).unwrap() == whole, "{text}");
        }
    }
    let input = "{ head -c 2256 >log; $W code $S -i /dev/stdin --exact; } <stream";
    let (status, second, said) = script(&folder, input);
    assert!(
        status == 0 && second.len() == carriers.len() / 2,
        "{input}: {said}"
    );
}

/// Another descriptor: a pipe is written, and a file is refused, since it is not known how it was opened.
#[test]
fn other_descriptors() {
    let (folder, carriers) = with_stream("files-descriptors", 65);
    for text in [
        format!("{CODE} --exact --quiet -o /dev/fd/3 3>&1 >/dev/null | cat"),
        format!("{CODE} --exact --quiet -o /dev/stderr 2>&1 >/dev/null | cat"),
        format!("{CODE} --exact --quiet -o >(cat >out); wait $!; cat out"),
    ] {
        let (status, written, said) = script(&folder, &text);
        assert!(status == 0 && written == carriers, "{text}: {said}");
    }
    let told = ["can't be written", "name the file itself"];
    for path in ["/dev/fd/3", "/proc/self/fd/3"] {
        let text = format!("printf before >log; {CODE} -o {path} 3>>log");
        script_refused(&folder, &text, &told);
        assert_eq!(fs::read(folder.join("log")).unwrap(), b"before");
    }
    let text =
        format!("printf before >log; {CODE} -o /dev/stderr 2>>log; tail -c +7 log >&2; exit 1");
    script_refused(&folder, &text, &told);
}

/// A file that is read-only is refused before anything is read, also as a state, and so is a folder.
#[test]
fn read_only_files_are_refused() {
    let (folder, _) = with_stream("files-read-only", 66);
    let record = record();
    fs::write(folder.join("fast"), &record).unwrap();
    fs::set_permissions(folder.join("fast"), fs::Permissions::from_mode(0o444)).unwrap();
    symlink("fast", folder.join("link")).unwrap();
    fs::create_dir(folder.join("folder")).unwrap();
    let before = names(&folder);
    // the input never comes
    let wait = "mkfifo never; timeout 60 ";
    for (name, why) in [
        ("fast", "it is read-only"),
        ("link", "it is read-only"),
        ("folder", "it is a folder"),
    ] {
        let told = format!("{name} can't be written: {why}");
        for words in [
            format!("code $S -i never -o {name}"),
            format!("code $S -i never --state {name}"),
            format!("replace --state {name} --packet 0 --old never --new never -i never"),
        ] {
            script_refused(&folder, &format!("{wait} $W {words}"), &[&told]);
            fs::remove_file(folder.join("never")).unwrap();
        }
    }
    assert_eq!(names(&folder), before);
    assert!(fs::read(folder.join("fast")).unwrap() == record);
    let device = format!("{CODE} --state /dev/null");
    script_refused(&folder, &device, &["/dev/null can't be kept"]);
}
