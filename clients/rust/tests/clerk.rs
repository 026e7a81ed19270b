//! The clerks' program in C, run as a child: sessions written by hand, with all that they print, and hostile text, which a
//! model of the program answers too. `make all build/clerk-asan` builds what is run.

use std::collections::BTreeMap;
use std::fs::{self, File, OpenOptions};
use std::io::{self, Read, Write};
use std::path::PathBuf;
use std::process::{Child, Command, ExitStatus, Stdio};
use std::sync::mpsc;
use std::thread;
use std::time::Duration;

const BOTH: [&str; 2] = ["clerk", "clerk-asan"];

/// What a sanitizer that finds something ends with; the program itself never does.
const SANITIZER: i32 = 99;

const COMMANDS: &str = r#"claim CENTS           one more creditor claims so much
prove CREDITOR CENTS  the claim of this creditor is so much from now on
come CENTS            so much more is there
shares                what each creditor gets, in cents and parts of a cent
cents                 what each creditor gets, in whole cents
help                  these commands
quit                  ends, as the end of input does
Creditors are counted from 0: "prove 0 150" says that the first one claims 150 cents.
"#;

const HELP: &str = "usage: clerk [-n CREDITORS] [FILE]
Divides an estate that may leave less than is owed; reads FILE, or standard input.
  -n CREDITORS  how many there may be; 1024 at most, and where it is not said
  -h, --help    these words
Each line is a command; what stands behind a # is skipped.
";

const USAGE: &str = "usage: clerk [-n CREDITORS] [FILE]\n";

fn build() -> PathBuf {
    match std::env::var_os("VULLADES_BUILD") {
        Some(folder) => PathBuf::from(folder),
        None => PathBuf::from(concat!(env!("CARGO_MANIFEST_DIR"), "/../../build")),
    }
}

fn clerk(name: &str, arguments: &[&str]) -> Command {
    let mut command = Command::new(build().join(name));
    command
        .args(arguments)
        .stdin(Stdio::piped())
        .stdout(Stdio::piped())
        .stderr(Stdio::piped());
    // Leaks are not looked for, since that fails where a program may not trace another.
    command
        .env(
            "ASAN_OPTIONS",
            format!("exitcode={SANITIZER}:detect_leaks=0"),
        )
        .env("UBSAN_OPTIONS", format!("exitcode={SANITIZER}"));
    command
}

fn start(command: &mut Command) -> Child {
    command.spawn().unwrap_or_else(|error| {
        panic!(
            "{:?}: {error}; `make all build/clerk-asan` builds it",
            command.get_program()
        )
    })
}

/// Runs a program on an input; what it wrote, what it complained of, and its status.
fn run(command: &mut Command, input: &[u8]) -> (Vec<u8>, Vec<u8>, ExitStatus) {
    let mut child = start(command);
    let stdin = child.stdin.take();
    thread::scope(|scope| {
        // Who quits does not read the rest.
        scope.spawn(move || stdin.map(|mut stdin| stdin.write_all(input)));
        let output = child.wait_with_output().expect("the program ends");
        (output.stdout, output.stderr, output.status)
    })
}

fn text(bytes: &[u8]) -> String {
    String::from_utf8_lossy(bytes).into_owned()
}

/// Runs both programs, and holds them to all that they are to print and to their status.
#[track_caller]
fn session(arguments: &[&str], input: impl AsRef<[u8]>, out: &str, err: &str, status: i32) {
    for name in BOTH {
        let (stdout, stderr, ended) = run(&mut clerk(name, arguments), input.as_ref());
        assert_eq!(text(&stdout), out, "what {name} writes");
        assert_eq!(text(&stderr), err, "what {name} complains of");
        assert_eq!(ended.code(), Some(status), "how {name} ends");
    }
}

// ---- Sessions ----

#[test]
fn three_tables() {
    let claims = "claim 100\nclaim 200\nclaim 300\n";
    let claimed = "creditor 0 claims 100\ncreditor 1 claims 200\ncreditor 2 claims 300\n";
    let each = |amounts: [&str; 3]| -> String {
        (0..3)
            .map(|i| format!("creditor {i}: {}\n", amounts[i]))
            .collect()
    };
    for (there, shares, cents) in [
        (0, ["0", "0", "0"], ["0", "0", "0"]),
        (1, ["1/3", "1/3", "1/3"], ["1", "0", "0"]),
        (100, ["33 1/3", "33 1/3", "33 1/3"], ["34", "33", "33"]),
        (150, ["50", "50", "50"], ["50", "50", "50"]),
        (151, ["50", "50 1/2", "50 1/2"], ["50", "51", "50"]),
        (200, ["50", "75", "75"], ["50", "75", "75"]),
        (300, ["50", "100", "150"], ["50", "100", "150"]),
        (301, ["50", "100", "151"], ["50", "100", "151"]),
        (400, ["50", "125", "225"], ["50", "125", "225"]),
        (500, ["66 2/3", "166 2/3", "266 2/3"], ["67", "167", "266"]),
        (599, ["99 2/3", "199 2/3", "299 2/3"], ["100", "200", "299"]),
        (600, ["100", "200", "300"], ["100", "200", "300"]),
        (700, ["100", "200", "300"], ["100", "200", "300"]),
    ] {
        let came = if there == 1 {
            "there is 1 cent".into()
        } else {
            format!("there are {there} cents")
        };
        let out = format!("{claimed}{came}\n{}{}", each(shares), each(cents));
        session(
            &[],
            format!("{claims}come {there}\nshares\ncents\n"),
            &out,
            "",
            0,
        );
    }
}

#[test]
fn a_garment_that_two_hold() {
    session(
        &["-n", "2"],
        "claim 100\nclaim 50\ncome 100\nshares\nprove 0 1\nprove 1 1\nshares\n",
        "creditor 0 claims 100\ncreditor 1 claims 50\nthere are 100 cents\ncreditor 0: 75\ncreditor 1: 25\n\
         creditor 0 now claims 1\ncreditor 1 now claims 1\ncreditor 0: 1\ncreditor 1: 1\n",
        "",
        0,
    );
    session(
        &["-n2"],
        "claim 1\nclaim 1\ncome 1\nshares\ncents\n",
        "creditor 0 claims 1\ncreditor 1 claims 1\nthere is 1 cent\ncreditor 0: 1/2\ncreditor 1: 1/2\n\
         creditor 0: 1\ncreditor 1: 0\n",
        "",
        0,
    );
}

/// Seven savers of a bank, and one who lent it much more: the parts are 14 and 16, and what is told is in lowest terms.
#[test]
fn a_bank() {
    let savers = |line: &dyn Fn(usize) -> String| -> String { (0..7).map(line).collect() };
    let input = format!(
        "{}come 100000\nshares\ncents\nclaim 1000000\nshares\n",
        "claim 25000\n".repeat(7)
    );
    let out = savers(&|i| format!("creditor {i} claims 25000\n"))
        + "there are 100000 cents\n"
        + &savers(&|i| format!("creditor {i}: 14285 5/7\n"))
        + &savers(&|i| format!("creditor {i}: {}\n", if i < 5 { 14286 } else { 14285 }))
        + "creditor 7 claims 1000000\n"
        + &savers(&|i| format!("creditor {i}: 12500\n"))
        + "creditor 7: 12500\n";
    session(&[], input, &out, "", 0);
}

/// Of 1,024 creditors, who claim a cent each, 1,023 cents: each lacks 1/1024, and the last has none for the first 1,023.
#[test]
fn as_many_as_there_may_be() {
    let each = |line: &dyn Fn(usize) -> String| -> String { (0..1024).map(line).collect() };
    let out = each(&|i| format!("creditor {i} claims 1\n"))
        + "there are 1023 cents\n"
        + &each(&|i| format!("creditor {i}: 1023/1024\n"))
        + &each(&|i| format!("creditor {i}: {}\n", if i < 1023 { 1 } else { 0 }));
    let input = "claim 1\n".repeat(1025) + "come 1023\nshares\ncents\n";
    let err = "line 1025: the desk is for 1024 creditors only\n";
    session(&[], &input, &out, err, 1);
    session(&["-n", "1024"], &input, &out, err, 1);
}

/// Each claims 10^9 cents, and 10^12 are there, of which each of 1,001 has the same: 10^12/1001 cents.
#[test]
fn the_largest_amounts() {
    let mut input =
        "claim 1000000000\n".repeat(1001) + &"come 1000000000\n".repeat(1000) + "come 1\nshares\n";
    let mut out: String = (0..1001)
        .map(|i| format!("creditor {i} claims 1000000000\n"))
        .collect();
    out.extend((1..=1000).map(|i| format!("there are {i}000000000 cents\n")));
    out.extend((0..1001).map(|i| format!("creditor {i}: 999000999 1/1001\n")));
    input += "come 0\ncome 1000000001\n";
    out += "there are 1000000000000 cents\n";
    let err = "line 2002: more than 1,000,000,000,000 cents would be there\n\
               line 2005: 1000000001 cents are too many: at most 1,000,000,000 at once\n";
    session(&[], input, &out, err, 1);
}

#[test]
fn nobody_claims() {
    session(
        &[],
        "shares\ncents\ncome 1\nshares\ncents\ncome 1\n",
        "there are no creditors\nthere are no creditors\nthere is 1 cent\nthere are no creditors\nthere are no creditors\n\
         there are 2 cents\n",
        "",
        0,
    );
    session(&[], "", "", "", 0);
}

#[test]
fn what_the_desk_refuses() {
    session(
        &["-n", "2"],
        "prove 0 5\nclaim 1000000001\nclaim 1000000000\nprove 1 5\nclaim 7\nclaim 8\nprove 2 5\nprove 0 1000000001\n\
         prove 2 18446744073709551615\nprove 4294967296 1\nprove 18446744073709551615 1\nprove 1 0\ncome 2000000000\n\
         claim 1000000001\ncome 3\nshares\n",
        "creditor 0 claims 1000000000\ncreditor 1 claims 7\ncreditor 1 now claims 0\nthere are 3 cents\n\
         creditor 0: 3\ncreditor 1: 0\n",
        "line 1: there is no creditor 0: there are 0, counted from 0\n\
         line 2: 1000000001 cents are too many: at most 1,000,000,000 at once\n\
         line 4: there is no creditor 1: there is 1, counted from 0\n\
         line 6: the desk is for 2 creditors only\n\
         line 7: there is no creditor 2: there are 2, counted from 0\n\
         line 8: 1000000001 cents are too many: at most 1,000,000,000 at once\n\
         line 9: 18446744073709551615 cents are too many: at most 1,000,000,000 at once\n\
         line 10: there is no creditor 4294967296: there are 2, counted from 0\n\
         line 11: there is no creditor 18446744073709551615: there are 2, counted from 0\n\
         line 13: 2000000000 cents are too many: at most 1,000,000,000 at once\n\
         line 14: 1000000001 cents are too many: at most 1,000,000,000 at once\n",
        1,
    );
    session(
        &["-n", "1"],
        "claim 3\nclaim 4\n",
        "creditor 0 claims 3\n",
        "line 2: the desk is for 1 creditor only\n",
        1,
    );
    session(
        &["-n", "0"],
        "claim 3\nshares\n",
        "there are no creditors\n",
        "line 1: the desk is for 0 creditors only\n",
        1,
    );
}

#[test]
fn what_is_no_command() {
    session(
        &[],
        "Claim 1\nclaim\nclaim 1 2\nprove 1\nprove\nprove 0 1 2\nprove 0 1 2 3 4 5\ncome\ncome 1 1\nshares 0\ncents all\n\
         help me\nquit now\nclaim -1\nclaim +1\nclaim 1.50\nclaim 1,000\nclaim 0x10\nclaim 1e3\nclaim 12a\nprove x 1\n\
         prove 0 x\nprove y x\nclaims 1\nclai 1\n150\n",
        "",
        "line 1: Claim is not a command: help lists them\n\
         line 2: too few words: write claim CENTS\n\
         line 3: too many words: write claim CENTS\n\
         line 4: too few words: write prove CREDITOR CENTS\n\
         line 5: too few words: write prove CREDITOR CENTS\n\
         line 6: too many words: write prove CREDITOR CENTS\n\
         line 7: too many words: write prove CREDITOR CENTS\n\
         line 8: too few words: write come CENTS\n\
         line 9: too many words: write come CENTS\n\
         line 10: too many words: write shares\n\
         line 11: too many words: write cents\n\
         line 12: too many words: write help\n\
         line 13: too many words: write quit\n\
         line 14: -1 is not a number: write digits only\n\
         line 15: +1 is not a number: write digits only\n\
         line 16: 1.50 is not a number: write digits only\n\
         line 17: 1,000 is not a number: write digits only\n\
         line 18: 0x10 is not a number: write digits only\n\
         line 19: 1e3 is not a number: write digits only\n\
         line 20: 12a is not a number: write digits only\n\
         line 21: x is not a number: write digits only\n\
         line 22: x is not a number: write digits only\n\
         line 23: y is not a number: write digits only\n\
         line 24: claims is not a command: help lists them\n\
         line 25: clai is not a command: help lists them\n\
         line 26: 150 is not a command: help lists them\n",
        1,
    );
}

#[test]
fn numbers_of_many_digits() {
    session(
        &[],
        "claim 18446744073709551615\nclaim 18446744073709551616\nclaim 18446744073709551620\nclaim 28446744073709551615\n\
         claim 99999999999999999999x\nclaim 100000000000000000000\nprove 18446744073709551616 x\nprove 0 18446744073709551616\n\
         claim 00000000000000000000000000000007\nclaim 184467440737095516160\ncome 340282366920938463463374607431768211456\n",
        "creditor 0 claims 7\n",
        "line 1: 18446744073709551615 cents are too many: at most 1,000,000,000 at once\n\
         line 2: 18446744073709551616 is more than a 64-bit number holds\n\
         line 3: 18446744073709551620 is more than a 64-bit number holds\n\
         line 4: 28446744073709551615 is more than a 64-bit number holds\n\
         line 5: 99999999999999999999x is not a number: write digits only\n\
         line 6: 100000000000000000000 is more than a 64-bit number holds\n\
         line 7: 18446744073709551616 is more than a 64-bit number holds\n\
         line 8: 18446744073709551616 is more than a 64-bit number holds\n\
         line 10: 184467440737095516160 is more than a 64-bit number holds\n\
         line 11: 340282366920938463463374607431768211456 is more than a 64-bit number holds\n",
        1,
    );
}

#[test]
fn blanks_comments_and_other_bytes() {
    session(
        &[],
        b"# a comment\n\n   \t \r\n\tclaim \t 5 # five\r\nclaim 6#\nclaim 7\r\nclaim#8\ncl\0aim 9\nclaim 1\x000\n\x1b[31mred\x7f\n\
          claim \xc3\xbc\nclaim\x0b1\nclaim 1\x0c\n\0\n#\0\x1b\nquit\0\nshares\r\r\ncome 9"
            .as_slice(),
        "creditor 0 claims 5\ncreditor 1 claims 6\ncreditor 2 claims 7\n\
         creditor 0: 0\ncreditor 1: 0\ncreditor 2: 0\nthere are 9 cents\n",
        "line 7: too few words: write claim CENTS\n\
         line 8: cl?aim is not a command: help lists them\n\
         line 9: 1?0 is not a number: write digits only\n\
         line 10: ?[31mred? is not a command: help lists them\n\
         line 11: ?? is not a number: write digits only\n\
         line 12: claim?1 is not a command: help lists them\n\
         line 13: 1? is not a number: write digits only\n\
         line 14: ? is not a command: help lists them\n\
         line 16: quit? is not a command: help lists them\n",
        1,
    );
    session(
        &[],
        "# nothing behind this feed\n# and none here",
        "",
        "",
        0,
    );
    session(
        &[],
        "claim 5\nfoo",
        "creditor 0 claims 5\n",
        "line 2: foo is not a command: help lists them\n",
        1,
    );
}

#[test]
fn lines_of_any_length() {
    let too_long = "the line is too long: at most 200 bytes in front of a #\n";
    let fits = format!("claim {}7", "0".repeat(193));
    let word = "x".repeat(200);
    assert_eq!((fits.len(), word.len()), (200, 200));
    let mut input = format!(
        "{fits}\n0{fits}\n{fits}0\n{fits}\r\n{word}\n{word}x\n{fits}# {}\n",
        "c".repeat(100_000)
    )
    .into_bytes();
    input.extend(vec![b'x'; 3_000_000]);
    input.extend(b"\nclaim 8\n");
    input.extend(vec![0; 1_000_000]);
    input.extend(b"#\nclaim 9\n");
    input.extend(vec![b' '; 201]);
    input.extend(b"\n");
    input.extend(vec![b' '; 200]);
    input.extend(b"\nclaim 10\n");
    input.extend(b"y ".repeat(500_000));
    let err = format!(
        "line 2: {too_long}line 3: {too_long}line 4: {too_long}line 5: {word} is not a command: help lists them\n\
         line 6: {too_long}line 8: {too_long}line 10: {too_long}line 12: {too_long}line 15: {too_long}"
    );
    let out = "creditor 0 claims 7\ncreditor 1 claims 7\ncreditor 2 claims 8\ncreditor 3 claims 9\ncreditor 4 claims 10\n";
    session(&[], input, out, &err, 1);
}

#[test]
fn help_and_quit() {
    session(&[], "help\n", COMMANDS, "", 0);
    session(
        &[],
        "claim 1\n quit # now\nclaim 2\nfoo\n",
        "creditor 0 claims 1\n",
        "",
        0,
    );
    session(
        &[],
        "foo\nquit\n",
        "",
        "line 1: foo is not a command: help lists them\n",
        1,
    );
    session(&[], "quit", "", "", 0);
    for arguments in [
        ["-h"].as_slice(),
        &["--help"],
        &["-n", "3", "-h"],
        &["some file", "--help", "-x"],
    ] {
        session(arguments, "claim 1\n", &format!("{HELP}{COMMANDS}"), "", 0);
    }
}

#[test]
fn arguments_that_are_wrong() {
    for arguments in [
        ["-n"].as_slice(),
        &["-n", "1025"],
        &["-n1025"],
        &["-n", "x"],
        &["-n", ""],
        &["-n", "-1"],
        &["-nx"],
        &["-n", "1 "],
        &["-n", "18446744073709551617"],
        &["-n", "3", "-n"],
    ] {
        session(
            arguments,
            "claim 1\n",
            "",
            &format!("clerk: -n needs a number of creditors, at most 1024\n{USAGE}"),
            2,
        );
    }
    for (arguments, wrong) in [
        (["-x"].as_slice(), "-x is not an option"),
        (&["-help"], "-help is not an option"),
        (&["--n", "3"], "--n is not an option"),
        (&["-\x1b[31m\u{fc}\t"], "-?[31m??  is not an option"),
        (&["a", "b"], "b is one file too many"),
        (&["-", "-"], "- is one file too many"),
        (&["--", "-n", "3"], "3 is one file too many"),
    ] {
        session(
            arguments,
            "claim 1\n",
            "",
            &format!("clerk: {wrong}\n{USAGE}"),
            2,
        );
    }
    session(
        &["-n", "3", "-n", "1"],
        "claim 1\nclaim 1\n",
        "creditor 0 claims 1\n",
        "line 2: the desk is for 1 creditor only\n",
        1,
    );
}

#[test]
fn files() {
    let folder = std::env::temp_dir().join(format!("clerk-{}", std::process::id()));
    fs::create_dir_all(&folder).expect("a folder");
    let file = folder.join("claims.txt");
    let (folder, path) = (
        folder.to_str().expect("a path"),
        file.to_str().expect("a path").to_owned(),
    );
    fs::write(&path, "claim 3\nfoo\nclaim 4\nclaim 5\n").expect("a file");
    let out = "creditor 0 claims 3\ncreditor 1 claims 4\n";
    let err =
        "line 2: foo is not a command: help lists them\nline 4: the desk is for 2 creditors only\n";
    session(&["-n", "2", &path], "come 1\n", out, err, 1);
    session(&[&path, "-n2"], "come 1\n", out, err, 1);
    session(&["-n2", "--", &path], "come 1\n", out, err, 1);
    session(&["-n2", "-"], "come 1\n", "there is 1 cent\n", "", 0);
    session(
        &[folder],
        "come 1\n",
        "",
        &format!("clerk: {folder}: Is a directory\n"),
        2,
    );
    let missing = format!("{folder}/no\u{1}ne");
    session(
        &[&missing],
        "come 1\n",
        "",
        &format!("clerk: {folder}/no?ne: No such file or directory\n"),
        2,
    );
    session(
        &["--", "-n"],
        "come 1\n",
        "",
        "clerk: -n: No such file or directory\n",
        2,
    );
    // Answers and complaints in one file stand in the order of the lines.
    for name in BOTH {
        let both = File::create(&file).expect("a file");
        let mut command = clerk(name, &[]);
        command
            .stdout(both.try_clone().expect("a file"))
            .stderr(both);
        let (_, _, status) = run(&mut command, b"claim 1\nfoo\nclaim 2\n");
        let told = fs::read_to_string(&file).expect("a file");
        assert_eq!(
            told,
            "creditor 0 claims 1\nline 2: foo is not a command: help lists them\ncreditor 1 claims 2\n"
        );
        assert_eq!(status.code(), Some(1));
    }
    fs::remove_dir_all(folder).expect("the folder is there");
}

#[test]
fn nothing_can_be_written() {
    for name in BOTH {
        for (arguments, input) in [([].as_slice(), "claim 1\nfoo\n"), (&["--help"], "")] {
            let full = OpenOptions::new()
                .write(true)
                .open("/dev/full")
                .expect("a full device");
            let (_, stderr, status) = run(clerk(name, arguments).stdout(full), input.as_bytes());
            assert_eq!(
                text(&stderr),
                "clerk: standard output: No space left on device\n"
            );
            assert_eq!(status.code(), Some(2));
        }
        // So many shares that not all fit into one write.
        let full = OpenOptions::new()
            .write(true)
            .open("/dev/full")
            .expect("a full device");
        let many = "#\n".repeat(10) + "help\n" + &"claim 1\n".repeat(1000) + "shares\n";
        let (_, stderr, status) = run(clerk(name, &[]).stdout(full), many.as_bytes());
        assert_eq!(
            (text(&stderr).as_str(), status.code()),
            ("clerk: standard output: No space left on device\n", Some(2))
        );
    }
}

// ---- Somebody who waits ----

/// Reads what comes, up to an end that is waited for.
struct Waiting(mpsc::Receiver<u8>);

impl Waiting {
    fn of(mut from: impl Read + Send + 'static) -> Self {
        let (sender, receiver) = mpsc::channel();
        thread::spawn(move || {
            let mut byte = [0];
            while matches!(from.read(&mut byte), Ok(1)) && sender.send(byte[0]).is_ok() {}
        });
        Waiting(receiver)
    }

    #[track_caller]
    fn expect(&self, expected: &str) {
        let mut came = Vec::new();
        while came.len() < expected.len() {
            match self.0.recv_timeout(Duration::from_secs(10)) {
                Ok(byte) => came.push(byte),
                Err(error) => panic!("{error}: {:?} came instead of {expected:?}", text(&came)),
            }
        }
        assert_eq!(text(&came), expected);
    }

    #[track_caller]
    fn expect_end(&self) {
        let came = self.0.recv_timeout(Duration::from_secs(10));
        assert_eq!(came, Err(mpsc::RecvTimeoutError::Disconnected));
    }
}

/// What a child ends with, that is to end by itself.
#[track_caller]
fn end(mut child: Child) -> Option<i32> {
    for _ in 0..1000 {
        if let Some(status) = child.try_wait().expect("it is a child") {
            return status.code();
        }
        thread::sleep(Duration::from_millis(10));
    }
    child.kill().expect("it is a child");
    panic!("it does not end");
}

/// An answer comes when its line was sent, also while more input may come.
#[test]
fn a_program_that_waits() {
    for name in BOTH {
        let mut child = start(&mut clerk(name, &[]));
        let mut stdin = child.stdin.take().expect("a pipe");
        let stdout = Waiting::of(child.stdout.take().expect("a pipe"));
        let stderr = Waiting::of(child.stderr.take().expect("a pipe"));
        stdin.write_all(b"claim 100\n").expect("it reads");
        stdout.expect("creditor 0 claims 100\n");
        stdin.write_all(b"claim\n").expect("it reads");
        stderr.expect("line 2: too few words: write claim CENTS\n");
        stdin.write_all(b"quit\n").expect("it reads");
        assert_eq!(end(child), Some(1));
        stdout.expect_end();
        stderr.expect_end();
    }
}

/// A terminal: the end at which somebody types, and the end from which a program reads.
fn terminal() -> io::Result<(File, File)> {
    use std::ffi::{CStr, c_char, c_int};
    use std::os::fd::FromRawFd;
    use std::os::unix::fs::OpenOptionsExt;
    unsafe extern "C" {
        fn posix_openpt(flags: c_int) -> c_int;
        fn grantpt(fd: c_int) -> c_int;
        fn unlockpt(fd: c_int) -> c_int;
        fn ptsname_r(fd: c_int, name: *mut c_char, length: usize) -> c_int;
    }
    const READ_AND_WRITE: c_int = 2;
    const NOT_OURS: c_int = 0x100;
    let mut name: [c_char; 64] = [0; 64];
    // SAFETY: the descriptor is owned by the file from where it is opened on; the name has as many bytes as is said.
    let (typed, named) = unsafe {
        let descriptor = posix_openpt(READ_AND_WRITE | NOT_OURS);
        if descriptor < 0 {
            return Err(io::Error::last_os_error());
        }
        let typed = File::from_raw_fd(descriptor);
        let named = grantpt(descriptor) == 0
            && unlockpt(descriptor) == 0
            && ptsname_r(descriptor, name.as_mut_ptr(), name.len()) == 0;
        (typed, named)
    };
    if !named {
        return Err(io::Error::last_os_error());
    }
    // SAFETY: ptsname_r has ended the name with a zero.
    let path = unsafe { CStr::from_ptr(name.as_ptr()) }
        .to_str()
        .map_err(io::Error::other)?;
    let read = OpenOptions::new()
        .read(true)
        .write(true)
        .custom_flags(NOT_OURS)
        .open(path)?;
    Ok((typed, read))
}

#[test]
fn somebody_at_a_terminal() {
    for name in BOTH {
        for (last, left) in [("quit\n", ""), ("\u{4}", "\n")] {
            let (mut typed, read) = terminal().expect("a terminal");
            let mut child = start(clerk(name, &["-n", "2"]).stdin(read));
            let stdout = Waiting::of(child.stdout.take().expect("a pipe"));
            let stderr = Waiting::of(child.stderr.take().expect("a pipe"));
            stdout.expect("Clerk for 2 creditors: help lists the commands, quit ends.\n> ");
            typed.write_all(b"claim 100\n").expect("it reads");
            stdout.expect("creditor 0 claims 100\n> ");
            typed.write_all(b"foo\n").expect("it reads");
            stderr.expect("foo is not a command: help lists them\n");
            stdout.expect("> ");
            typed.write_all(b"\n").expect("it reads");
            stdout.expect("> ");
            typed.write_all(b"help\n").expect("it reads");
            stdout.expect(&format!("{COMMANDS}> "));
            typed.write_all(last.as_bytes()).expect("it reads");
            stdout.expect(left);
            assert_eq!(end(child), Some(0));
            stdout.expect_end();
            stderr.expect_end();
        }
    }
}

// ---- A model of the program ----

/// What the rule gives each: so many parts, of which a cent has the number that is told with them.
fn divide(claims: &[u64], there: u64) -> (Vec<u128>, u128) {
    let claimed: u128 = claims.iter().map(|&claim| u128::from(claim)).sum();
    let divided = claimed.min(there.into());
    let by_gains = 2 * divided <= claimed;
    // Vessels as high as the claims are filled up to one level; half of what is in them is gained, or lost.
    let mut water = if by_gains {
        2 * divided
    } else {
        2 * (claimed - divided)
    };
    let mut vessels: Vec<u128> = claims.iter().map(|&claim| claim.into()).collect();
    vessels.sort_unstable_by(|a, b| b.cmp(a));
    while let Some(&lowest) = vessels.last() {
        if lowest * vessels.len() as u128 > water {
            break;
        }
        water -= lowest;
        vessels.pop();
    }
    // In vessels that are not full stands an equal part of the rest.
    let among = vessels.len().max(1) as u128;
    let level = if vessels.is_empty() { u128::MAX } else { water };
    let shares = claims.iter().map(|&claim| {
        let whole = among * u128::from(claim);
        let filled = whole.min(level);
        if by_gains { filled } else { 2 * whole - filled }
    });
    (shares.collect(), 2 * among)
}

/// Whole cents: shares rounded down, and each cent that is left to who lacks most, of equals to the first.
fn in_cents(shares: &[u128], parts: u128) -> Vec<u128> {
    let mut cents: Vec<u128> = shares.iter().map(|share| share / parts).collect();
    let mut lacks: Vec<u128> = shares.iter().map(|share| share % parts).collect();
    for _ in 0..lacks.iter().sum::<u128>() / parts {
        let most = lacks
            .iter()
            .copied()
            .max()
            .expect("somebody lacks something");
        let who = lacks
            .iter()
            .position(|&lack| lack == most)
            .expect("it is one of them");
        cents[who] += 1;
        lacks[who] = 0;
    }
    cents
}

/// Parts of a cent in words: each greater number is tried before a less one divides both.
fn in_words(share: u128, parts: u128) -> String {
    let (whole, rest) = (share / parts, share % parts);
    if rest == 0 {
        return whole.to_string();
    }
    let common = (1..=rest)
        .rev()
        .find(|by| rest.is_multiple_of(*by) && parts.is_multiple_of(*by))
        .expect("1 divides all");
    let fraction = format!("{}/{}", rest / common, parts / common);
    if whole == 0 {
        fraction
    } else {
        format!("{whole} {fraction}")
    }
}

#[derive(Default)]
struct Model {
    limit: usize,
    claims: Vec<u64>,
    there: u64,
    lines: u64,
    failed: bool,
    out: String,
    err: String,
    kinds: BTreeMap<&'static str, u64>,
}

impl Model {
    fn of(limit: usize, input: &[u8]) -> Self {
        let mut model = Model {
            limit,
            ..Model::default()
        };
        let input = input.strip_suffix(b"\n").unwrap_or(input);
        for line in input.split(|&byte| byte == b'\n') {
            model.lines += 1;
            match model.answer(line) {
                Ok("quit") => break,
                Ok(kind) => *model.kinds.entry(kind).or_default() += 1,
                Err((kind, why)) => {
                    *model.kinds.entry(kind).or_default() += 1;
                    model.failed = true;
                    model.err += &format!("line {}: {why}\n", model.lines);
                }
            }
        }
        model
    }

    /// Does a line, and tells its kind; or why it is not done.
    fn answer(&mut self, line: &[u8]) -> Result<&'static str, (&'static str, String)> {
        let line = line.split(|&byte| byte == b'#').next().unwrap_or_default();
        if line.len() > 200 {
            return Err((
                "too long",
                "the line is too long: at most 200 bytes in front of a #".into(),
            ));
        }
        let shown: String = line
            .iter()
            .map(|&byte| match byte {
                b'\t' | b'\r' => ' ',
                b' '..=b'~' => byte.into(),
                _ => '?',
            })
            .collect();
        let words: Vec<&str> = shown.split(' ').filter(|word| !word.is_empty()).collect();
        let Some((&name, rest)) = words.split_first() else {
            return Ok("empty");
        };
        let (kind, takes): (_, &[&str]) = match name {
            "claim" => ("claim", &["CENTS"]),
            "prove" => ("prove", &["CREDITOR", "CENTS"]),
            "come" => ("come", &["CENTS"]),
            "shares" => ("shares", &[]),
            "cents" => ("cents", &[]),
            "help" => ("help", &[]),
            "quit" => ("quit", &[]),
            _ => {
                return Err((
                    "unknown",
                    format!("{name} is not a command: help lists them"),
                ));
            }
        };
        if rest.len() != takes.len() {
            let (kind, than) = if rest.len() < takes.len() {
                ("too few", "few")
            } else {
                ("too many", "many")
            };
            return Err((
                kind,
                format!(
                    "too {than} words: write {}",
                    [&[name], takes].concat().join(" ")
                ),
            ));
        }
        let mut numbers = Vec::new();
        for word in rest {
            if word.bytes().any(|byte| !byte.is_ascii_digit()) {
                return Err((
                    "no number",
                    format!("{word} is not a number: write digits only"),
                ));
            }
            match word.parse::<u64>() {
                Ok(number) => numbers.push(number),
                Err(_) => {
                    return Err((
                        "64 bits",
                        format!("{word} is more than a 64-bit number holds"),
                    ));
                }
            }
        }
        self.done(kind, &numbers)
    }

    fn done(
        &mut self,
        kind: &'static str,
        numbers: &[u64],
    ) -> Result<&'static str, (&'static str, String)> {
        let count = self.claims.len();
        match (kind, numbers) {
            (_, [.., cents]) if *cents > 1_000_000_000 => Err((
                "too large",
                format!("{cents} cents are too many: at most 1,000,000,000 at once"),
            )),
            ("claim", _) if count == self.limit => {
                let creditors = if count == 1 { "creditor" } else { "creditors" };
                Err((
                    "no room",
                    format!("the desk is for {count} {creditors} only"),
                ))
            }
            ("claim", &[cents]) => {
                self.claims.push(cents);
                self.out += &format!("creditor {count} claims {cents}\n");
                Ok(kind)
            }
            ("prove", &[creditor, cents]) => {
                let Some(claim) = usize::try_from(creditor)
                    .ok()
                    .and_then(|place| self.claims.get_mut(place))
                else {
                    let are = if count == 1 { "is" } else { "are" };
                    return Err((
                        "not there",
                        format!(
                            "there is no creditor {creditor}: there {are} {count}, counted from 0"
                        ),
                    ));
                };
                *claim = cents;
                self.out += &format!("creditor {creditor} now claims {cents}\n");
                Ok(kind)
            }
            ("come", &[cents]) if self.there + cents > 1_000_000_000_000 => Err((
                "too rich",
                "more than 1,000,000,000,000 cents would be there".into(),
            )),
            ("come", &[cents]) => {
                self.there += cents;
                self.out += &match self.there {
                    1 => "there is 1 cent\n".into(),
                    there => format!("there are {there} cents\n"),
                };
                Ok(kind)
            }
            ("shares" | "cents", _) => {
                let (shares, parts) = divide(&self.claims, self.there);
                let (amounts, parts) = if kind == "shares" {
                    (shares, parts)
                } else {
                    (in_cents(&shares, parts), 1)
                };
                if amounts.is_empty() {
                    self.out += "there are no creditors\n";
                }
                for (creditor, &amount) in amounts.iter().enumerate() {
                    self.out += &format!("creditor {creditor}: {}\n", in_words(amount, parts));
                }
                Ok(kind)
            }
            ("help", _) => {
                self.out += COMMANDS;
                Ok(kind)
            }
            _ => Ok(kind),
        }
    }
}

/// The model's shares divide: they come to what is divided, and each two have of what they have together what one gets who
/// claims that with another: half of what both claim, and what only one of them does.
#[test]
fn the_model_divides_as_two_do() {
    let mut random = Random(1);
    let mut uneven = 0;
    for _ in 0..20_000 {
        let most = random.one_of(&[1, 2, 5, 20, 1_000_000_000]);
        let claims: Vec<u64> = (0..random.below(8))
            .map(|_| random.below(most + 1))
            .collect();
        let claimed: u64 = claims.iter().sum();
        let there = random.below(claimed + claimed / 4 + 2);
        let (shares, parts) = divide(&claims, there);
        let scaled: Vec<u128> = claims
            .iter()
            .map(|&claim| u128::from(claim) * parts)
            .collect();
        assert_eq!(
            shares.iter().sum::<u128>(),
            u128::from(there.min(claimed)) * parts,
            "{claims:?} of {there}"
        );
        for i in 0..claims.len() {
            assert!(shares[i] <= scaled[i], "{claims:?} of {there}");
            for j in 0..i {
                let together = shares[i] + shares[j];
                let (only_i, only_j) = (
                    together.saturating_sub(scaled[j]),
                    together.saturating_sub(scaled[i]),
                );
                let both = together - only_i - only_j;
                assert_eq!(
                    2 * shares[i],
                    2 * only_i + both,
                    "{claims:?} of {there}: {i} and {j}"
                );
                uneven += u64::from(shares[i] != shares[j]);
            }
        }
        let cents = in_cents(&shares, parts);
        assert_eq!(cents.iter().sum::<u128>(), u128::from(there.min(claimed)));
        for (cents, share) in cents.iter().zip(&shares) {
            assert!(
                (cents * parts).abs_diff(*share) < parts,
                "{claims:?} of {there}"
            );
        }
    }
    assert!(uneven > 10_000, "{uneven} pairs with different shares");
}

// ---- Hostile text ----

/// Numbers that look random, the same each time.
struct Random(u64);

impl Random {
    fn next(&mut self) -> u64 {
        self.0 = self.0.wrapping_add(0x9e37_79b9_7f4a_7c15);
        let mixed = (self.0 ^ (self.0 >> 30)).wrapping_mul(0xbf58_476d_1ce4_e5b9);
        let mixed = (mixed ^ (mixed >> 27)).wrapping_mul(0x94d0_49bb_1331_11eb);
        mixed ^ (mixed >> 31)
    }

    /// A number below this one, which is not 0.
    fn below(&mut self, end: u64) -> u64 {
        self.next() % end
    }

    fn index(&mut self, length: usize) -> usize {
        self.below(length as u64) as usize
    }

    fn one_of<T: Copy>(&mut self, all: &[T]) -> T {
        all[self.index(all.len())]
    }
}

/// What a session's numbers are like.
struct Style {
    limit: usize,
    claims: u64,
    comes: u64,
}

fn command(random: &mut Random, style: &Style) -> String {
    let lists = if style.limit > 50 { 3 } else { 40 };
    let cents = |random: &mut Random, most: u64| match random.below(40) {
        0 => random
            .one_of(&[
                0,
                1,
                999_999_999,
                1_000_000_000,
                1_000_000_001,
                u64::MAX,
                1 << 32,
                1 << 63,
            ])
            .to_string(),
        1 => random
            .one_of(&[
                "18446744073709551616",
                "18446744073709551619",
                "99999999999999999999",
                "00000000000000000000001",
            ])
            .into(),
        2 => random
            .one_of(&["-1", "1.5", "1,000", "", "ten", "0x1", "1 2", "+5"])
            .into(),
        3 => random.next().to_string(),
        _ => random.below(most + 1).to_string(),
    };
    match random.below(1000) {
        0..300 => format!("claim {}", cents(random, style.claims)),
        300..600 => {
            let creditor = match random.below(20) {
                0 => random
                    .one_of(&["4294967296", "18446744073709551615", "1024", "x", "00"])
                    .into(),
                1 => style.limit.to_string(),
                _ => random.below(style.limit as u64 + 1).to_string(),
            };
            format!("prove {creditor} {}", cents(random, style.claims))
        }
        600..800 => format!("come {}", cents(random, style.comes)),
        800..810 => "help".into(),
        810..820 => random
            .one_of(&[
                "", "#", "   ", "quit it", "shares 1", "cents of", "prove", "claim", "come",
            ])
            .into(),
        n if n < 820 + lists => "shares".into(),
        n if n < 820 + 2 * lists => "cents".into(),
        _ => format!("claim {}", random.below(style.claims + 1)),
    }
}

fn a_byte(random: &mut Random) -> u8 {
    match random.below(3) {
        0 => random.one_of(b"\0\n\r\t #-+.0189aeimprsv\x1b\x7f\x80\xff\x0b\x0c"),
        1 => random.one_of(b"0123456789 "),
        _ => random.below(256) as u8,
    }
}

/// A line with one change.
fn mutate(random: &mut Random, line: &mut Vec<u8>) {
    let at = random.index(line.len() + 1);
    match random.below(10) {
        0 => line.insert(at, a_byte(random)),
        1 => drop(line.drain(at.min(line.len().saturating_sub(1))..at)),
        2 if at < line.len() => line[at] = a_byte(random),
        3 => line.truncate(at),
        4 => line.extend_from_within(at..),
        5 => line.make_ascii_uppercase(),
        6 => {
            let word = [
                b" ".as_slice(),
                random.one_of(&[b"1".as_slice(), b"x", b"\0", b"claim", b"#", b"\r"]),
            ]
            .concat();
            line.splice(at..at, word);
        }
        7 | 8 => {
            // About as long as a line may be.
            let filler = random.one_of(b" 0x#\t");
            let long = (195 + random.index(12)).saturating_sub(line.len());
            line.splice(at..at, vec![filler; long]);
        }
        _ => line.rotate_left(at),
    }
}

/// Commands, some of them changed.
fn commands(random: &mut Random, lines: usize) -> (usize, Vec<u8>) {
    let limit = random.one_of(&[0, 1, 2, 3, 4, 7, 12, 30, 30, 200, 1024]);
    let claims = random.one_of(&[2, 10, 100, 5000, 1_000_000_000]);
    // After all lines about as much is there as is claimed; in some sessions there is almost too much from the first.
    let comes = (claims * limit as u64 / (lines as u64 / 5) + 1).min(1_000_000_000);
    let rich = random.below(8) == 0;
    let style = Style {
        limit,
        claims,
        comes: if rich { 1_000_000_000 } else { comes },
    };
    let mut input = if rich {
        b"come 1000000000\n".repeat(990)
    } else {
        Vec::new()
    };
    for _ in 0..lines {
        let mut line = command(random, &style).into_bytes();
        for _ in 0..random.one_of(&[0, 0, 0, 0, 0, 0, 1, 1, 2, 3]) {
            mutate(random, &mut line);
        }
        input.extend(line);
        input.push(b'\n');
    }
    if random.below(2) == 0 {
        input.extend(random.one_of(&[
            b"quit\nclaim 1\n".as_slice(),
            b"quit",
            b"claim 1",
            b"foo",
            b"\xff\0",
        ]));
    }
    (limit, input)
}

/// Where two texts differ, the first line is told in which they do.
fn assert_same(what: &str, came: &[u8], expected: &str, input: &[u8]) {
    if came != expected.as_bytes() {
        let came = text(came);
        let (line, (left, right)) = came
            .split('\n')
            .zip(expected.split('\n'))
            .enumerate()
            .find(|(_, (left, right))| left != right)
            .unwrap_or((0, ("(the beginning)", "(of the other)")));
        panic!(
            "{what}, line {}: {left:?} instead of {right:?}; the input begins {:?}",
            line + 1,
            text(&input[..input.len().min(2000)])
        );
    }
}

/// Runs the program with sanitizers on an input, and holds it to the model.
fn hold(limit: usize, input: &[u8]) -> Model {
    let model = Model::of(limit, input);
    let (out, err, status) = run(&mut clerk("clerk-asan", &["-n", &limit.to_string()]), input);
    assert_same("standard error", &err, &model.err, input);
    assert_same("standard output", &out, &model.out, input);
    assert_eq!(status.code(), Some(i32::from(model.failed)));
    model
}

#[test]
fn commands_and_changed_ones() {
    let mut random = Random(2);
    let mut lines = 0;
    let mut kinds = BTreeMap::new();
    for _ in 0..150 {
        let (limit, input) = commands(&mut random, 2000);
        let model = hold(limit, &input);
        lines += model.lines;
        for (kind, count) in model.kinds {
            *kinds.entry(kind).or_insert(0) += count;
        }
    }
    assert!(lines >= 250_000, "{lines} lines");
    for kind in [
        "claim",
        "prove",
        "come",
        "shares",
        "cents",
        "help",
        "empty",
        "too long",
        "unknown",
        "too few",
        "too many",
        "no number",
        "64 bits",
        "too large",
        "no room",
        "not there",
        "too rich",
    ] {
        assert!(
            kinds.get(kind).is_some_and(|&count| count >= 200),
            "{kind} is rare among {kinds:?}"
        );
    }
}

/// Bytes of which commands are made, in any order.
#[test]
fn letters_and_digits() {
    let mut random = Random(3);
    let words = [
        "claim ", "prove ", "come ", "shares", "cents", "help", " ", "\t", "\r", "\n", "\n", "\n",
        "#", "\0", "0", "17", "9999",
    ];
    let mut lines = 0;
    for _ in 0..8 {
        let input: Vec<u8> = (0..40_000)
            .flat_map(|_| {
                if random.below(9) == 0 {
                    vec![a_byte(&mut random)]
                } else {
                    random.one_of(&words).into()
                }
            })
            .collect();
        lines += hold(5, &input).lines;
    }
    assert!(lines >= 50_000, "{lines} lines");
}

/// Any bytes, in lines of any length.
#[test]
fn any_bytes() {
    let mut random = Random(4);
    let mut lines = 0;
    for feeds in [256, 200, 100, 20, 5, 2] {
        let input: Vec<u8> = (0..1_200_000)
            .map(|_| {
                if random.below(feeds) == 0 {
                    b'\n'
                } else {
                    random.below(256) as u8
                }
            })
            .collect();
        lines += hold(1024, &input[..if feeds > 50 { 1_200_000 } else { 60_000 }]).lines;
    }
    assert!(lines >= 60_000, "{lines} lines");
}
