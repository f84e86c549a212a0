//! Files that cannot be read or written, and wrong usage; an image that was there stays.

mod support;

use std::fs::{self, File};
use std::path::Path;
use support::{assembled, names, run, sample, scratch, Ran};

const IMAGE: &[u8] = b"an image from before";

/// A folder with the luz grammar and an image from before.
fn luz_folder(test: &str) -> std::path::PathBuf {
    let folder = scratch(test);
    fs::write(folder.join("luz.txt"), sample("luz")).unwrap();
    fs::write(folder.join("luz.img"), IMAGE).unwrap();
    folder
}

fn fails(ran: Ran, told: &str) {
    assert_eq!((ran.code, ran.stdout.as_str()), (Some(1), ""), "{}", ran.stderr);
    assert!(ran.stderr.starts_with(told), "{}", ran.stderr);
    assert_eq!(ran.stderr.lines().count(), 1);
}

fn image_stays(folder: &Path, others: &[&str]) {
    assert_eq!(fs::read(folder.join("luz.img")).unwrap(), IMAGE);
    let mut right = vec!["luz.img", "luz.txt"];
    right.extend(others);
    right.sort();
    assert_eq!(names(folder), right);
}

fn is_luz(image: &Path) -> bool {
    fs::read(image).unwrap() == assembled(&sample("luz")).unwrap()
}

#[test]
fn a_new_image_takes_the_place_of_the_old() {
    let folder = luz_folder("files-new");
    let ran = run(&folder, &["assemble", "luz.txt", "luz.img"]);
    assert_eq!(ran, Ran { code: Some(0), stdout: String::new(), stderr: String::new() });
    assert!(is_luz(&folder.join("luz.img")));
    assert_eq!(names(&folder), ["luz.img", "luz.img.names", "luz.txt"]);
}

#[test]
fn a_text_may_have_other_line_ends_and_a_byte_order_mark() {
    let folder = luz_folder("files-line-ends");
    let text = format!("\u{feff}{}", sample("luz").replace('\n', "\r\n"));
    fs::write(folder.join("luz.txt"), text.trim_end()).unwrap();
    let ran = run(&folder, &["assemble", "luz.txt", "luz.img"]);
    assert_eq!(ran, Ran { code: Some(0), stdout: String::new(), stderr: String::new() });
    assert!(is_luz(&folder.join("luz.img")));
}

#[test]
fn a_missing_grammar() {
    let folder = luz_folder("files-missing");
    fails(run(&folder, &["assemble", "none.txt", "luz.img"]), "none.txt:0: cannot be read: ");
    fails(run(&folder, &["list", "letters", "none.txt"]), "none.txt:0: cannot be read: ");
    image_stays(&folder, &[]);
}

#[test]
fn a_folder_in_place_of_a_grammar() {
    let folder = luz_folder("files-folder");
    fs::create_dir(folder.join("inner")).unwrap();
    fails(run(&folder, &["assemble", "inner", "luz.img"]), "inner:0: cannot be read: ");
    image_stays(&folder, &["inner"]);
}

#[test]
fn a_grammar_over_the_length_that_is_read() {
    let folder = luz_folder("files-long");
    let long = File::create(folder.join("long.txt")).unwrap();
    long.set_len(16 * 1024 * 1024 + 1).unwrap();
    fails(
        run(&folder, &["assemble", "long.txt", "luz.img"]),
        "long.txt:0: over 16777216 bytes, too long for a grammar",
    );
    image_stays(&folder, &["long.txt"]);
}

#[test]
fn an_image_in_place_of_a_grammar() {
    let folder = luz_folder("files-swapped");
    fs::write(folder.join("right.img"), assembled(&sample("luz")).unwrap()).unwrap();
    let told = "right.img:0: is an image and no text; headwords text gives its text";
    fails(run(&folder, &["assemble", "right.img", "luz.txt"]), told);
    assert_eq!(fs::read_to_string(folder.join("luz.txt")).unwrap(), sample("luz"));
    image_stays(&folder, &["right.img"]);
}

/// k is no letter, and z is the lexical side of no pair.
#[test]
fn a_faulty_grammar_lists_and_writes_nothing() {
    let folder = luz_folder("files-faulty");
    for slip in ["luk  Number", "luz  Number"] {
        fs::write(folder.join("faulty.txt"), sample("luz").replace("luc  Number", slip)).unwrap();
        for list in ["letters", "pairs", "sets", "entries"] {
            fails(run(&folder, &["list", list, "faulty.txt"]), "faulty.txt:");
        }
        for image in ["luz.img", "new.img"] {
            fails(run(&folder, &["assemble", "faulty.txt", image]), "faulty.txt:");
        }
        image_stays(&folder, &["faulty.txt"]);
    }
}

#[test]
fn a_folder_in_place_of_an_image() {
    let folder = luz_folder("files-image-folder");
    fs::create_dir(folder.join("inner")).unwrap();
    fails(run(&folder, &["assemble", "luz.txt", "inner"]), "inner:0: cannot be written: not a file");
    fails(run(&folder, &["assemble", "luz.txt", "none/luz.img"]), "none/luz.img:0: cannot be written: ");
    fails(run(&folder, &["assemble", "luz.txt", ""]), ":0: cannot be written: ");
    image_stays(&folder, &["inner"]);
    fs::create_dir(folder.join("luz.img.names")).unwrap();
    fails(run(&folder, &["assemble", "luz.txt", "luz.img"]), "luz.img.names:0: cannot be written: not a file");
    fs::remove_dir(folder.join("luz.img.names")).unwrap();
    image_stays(&folder, &["inner"]);
    assert_eq!(names(&folder.join("inner")), [""; 0]);
}

#[test]
fn the_grammar_itself_in_place_of_an_image() {
    let folder = luz_folder("files-itself");
    fails(run(&folder, &["assemble", "luz.txt", "./luz.txt"]), "./luz.txt:0: is the grammar's own text");
    assert_eq!(fs::read_to_string(folder.join("luz.txt")).unwrap(), sample("luz"));
    image_stays(&folder, &[]);
    fs::write(folder.join("new.names"), sample("luz")).unwrap();
    fails(run(&folder, &["assemble", "new.names", "new"]), "new.names:0: is the grammar's own text");
    image_stays(&folder, &["new.names"]);
}

#[cfg(unix)]
mod unix {
    use super::*;
    use std::os::unix::fs::{symlink, FileTypeExt};
    use std::process::Command;
    use support::run_command;

    /// A device is refused for the same reason, but a test had better not risk one.
    #[test]
    fn a_pipe_in_place_of_an_image() {
        let folder = luz_folder("files-pipe");
        assert!(Command::new("mkfifo").arg(folder.join("pipe")).status().unwrap().success());
        fails(run(&folder, &["assemble", "luz.txt", "pipe"]), "pipe:0: cannot be written: not a file");
        assert!(fs::metadata(folder.join("pipe")).unwrap().file_type().is_fifo());
        image_stays(&folder, &["pipe"]);
    }

    #[test]
    fn a_link_to_an_image_stays_a_link() {
        let folder = luz_folder("files-link");
        symlink("luz.img", folder.join("link.img")).unwrap();
        let ran = run(&folder, &["assemble", "luz.txt", "link.img"]);
        assert_eq!(ran, Ran { code: Some(0), stdout: String::new(), stderr: String::new() });
        assert!(fs::symlink_metadata(folder.join("link.img")).unwrap().is_symlink());
        assert!(is_luz(&folder.join("luz.img")));
        assert_eq!(names(&folder), ["link.img", "luz.img", "luz.img.names", "luz.txt"]);
    }

    /// With files limited to a block or two, writing fails after it has begun.
    #[test]
    fn an_image_that_cannot_be_written_whole() {
        let folder = luz_folder("files-part");
        let ran = shell(&folder, "trap '' XFSZ; ulimit -f 1; exec \"$0\" assemble luz.txt luz.img");
        fails(ran, "luz.img:0: cannot be written: ");
        image_stays(&folder, &[]);
    }

    /// A shell's run of the command, with its program as $0.
    fn shell(folder: &Path, script: &str) -> Ran {
        let mut shell = Command::new("sh");
        shell.args(["-c", script, env!("CARGO_BIN_EXE_headwords")]);
        run_command(folder, shell)
    }

    #[test]
    fn a_full_disk_is_told() {
        let folder = luz_folder("files-device");
        for command in ["text luz.txt", "check luz.txt", "list entries luz.txt", "help", "--version"] {
            let ran = shell(&folder, &format!("exec \"$0\" {command} >/dev/full"));
            fails(ran, "standard output: No space left on device");
        }
    }

    #[test]
    fn a_reader_that_goes_away_needs_no_words() {
        let folder = luz_folder("files-closed");
        for command in ["text luz.txt", "check luz.txt", "list entries luz.txt", "help"] {
            let ran = shell(&folder, &format!("{{ sleep 0.3; \"$0\" {command}; echo $? >status; }} | true"));
            assert_eq!(ran, Ran { code: Some(0), stdout: String::new(), stderr: String::new() });
            assert_eq!(fs::read_to_string(folder.join("status")).unwrap(), "1\n", "{command}");
        }
    }

    #[test]
    fn a_list_that_cannot_be_written() {
        let folder = luz_folder("files-full");
        let ran = shell(&folder, "trap '' XFSZ; ulimit -f 0; exec \"$0\" list letters luz.txt > list");
        fails(ran, "standard output: ");
    }
}

#[test]
fn wrong_usage() {
    let folder = luz_folder("files-usage");
    let wrong: [(&[&str], &str); 17] = [
        (&[], "usage: headwords COMMAND ...\n"),
        (
            &["assemble"],
            "headwords assemble: something is missing\nusage: headwords assemble [OPTION...] GRAMMAR IMAGE\n",
        ),
        (&["assemble", "luz.txt"], "headwords assemble: something is missing\n"),
        (&["assemble", "luz.txt", "new.img", "more"], "headwords assemble: more is one too many\n"),
        (&["assemble", "luz.txt", "--letters"], "headwords assemble: there is no option --letters\n"),
        (&["assemble", "--form", "3", "luz.txt", "new.img"], "headwords assemble: --form takes 1 or 2, not 3\n"),
        (&["assemble", "luz.txt", "new.img", "--form"], "headwords assemble: --form takes a value, --form 1|2\n"),
        (&["convert", "luz.img"], "headwords convert: something is missing\nusage: headwords convert IMAGE OUT\n"),
        (&["list", "letters"], "headwords list: something is missing\n"),
        (&["list", "letters", "luz.txt", "more"], "headwords list: more is one too many\n"),
        (&["list", "letter", "luz.txt"], "headwords list: there is no list of letter; is letters meant?\n"),
        (&["list", "words", "luz.txt"], "headwords list: there is no list of words\n"),
        (&["asemble", "luz.txt", "luz.img"], "headwords: there is no command asemble; is assemble meant?\n"),
        (&["luz.txt", "luz.img"], "headwords: there is no command luz.txt\n"),
        (&["--letters", "luz.txt"], "headwords: there is no command --letters\n"),
        (&["help", "asemble"], "headwords: there is no command asemble; is assemble meant?\n"),
        (&["help", "list", "text"], "headwords: help takes one command\n"),
    ];
    for (arguments, told) in wrong {
        let ran = run(&folder, arguments);
        assert_eq!((ran.code, ran.stdout.as_str()), (Some(2), ""), "{arguments:?}");
        assert!(ran.stderr.starts_with(told), "{arguments:?}: {}", ran.stderr);
    }
    image_stays(&folder, &[]);
}

#[test]
fn help() {
    let printed = |arguments: &[&str]| {
        let ran = run(support::anywhere(), arguments);
        assert_eq!((ran.code, ran.stderr.as_str()), (Some(0), ""), "{arguments:?}");
        ran.stdout
    };
    let overview = printed(&["help"]);
    assert_eq!(overview, printed(&["--help"]));
    let commands = [
        "read", "generate", "forms", "check", "assemble", "text", "convert", "list", "why", "compare", "show", "sheet",
        "spell",
    ];
    for command in commands {
        assert!(overview.contains(&format!("\n  {command} ")), "{command}");
        let help = printed(&["help", command]);
        assert!(help.starts_with(&format!("usage: headwords {command} ")), "{command}");
        assert_eq!(help, printed(&[command, "--help"]));
        assert_eq!(help, printed(&[command, "none.txt", "-h"]));
    }
    assert_eq!(printed(&["--version"]), format!("headwords {}\n", env!("CARGO_PKG_VERSION")));
}
