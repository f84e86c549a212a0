//! The lists of luz, and the sets of quichua.

mod support;

use support::{anywhere, run, sample_path, Ran};

fn luz(list: &str) -> Ran {
    run(anywhere(), &["list".as_ref(), list.as_ref(), sample_path("luz").as_os_str()])
}

#[test]
fn letters_by_number() {
    let right = "1\t#\n2\t+\n3\tc\n4\te\n5\tl\n6\ts\n7\tu\n8\tz\n9\tZ\n";
    assert_eq!(luz("letters"), Ran { code: Some(0), stdout: right.into(), stderr: String::new() });
}

#[test]
fn pairs_by_number() {
    let right = "0\t+:0\n1\tc:c\n2\te:e\n3\tl:l\n4\ts:s\n5\tu:u\n6\tZ:c\n7\tZ:z\n";
    assert_eq!(luz("pairs"), Ran { code: Some(0), stdout: right.into(), stderr: String::new() });
}

#[test]
fn sets_by_number() {
    let none = Ran { code: Some(0), stdout: String::new(), stderr: String::new() };
    assert_eq!(luz("sets"), none);
    let ran = run(anywhere(), &["list".as_ref(), "sets".as_ref(), sample_path("quichua").as_os_str()]);
    assert_eq!(ran, Ran { stdout: "0\tFtr\ty n r\n1\tCPos\tq ǧ Q\n".into(), ..none });
}

#[test]
fn entries_by_number() {
    let right = "\
0\tNoun\tluZ\tNumber\t0\tluz
1\tNoun\tluc\tNumber\t1\tluc
2\tNumber\t0\t#\t2\tsingular
3\tNumber\t+es\t#\t3\tplural
";
    assert_eq!(luz("entries"), Ran { code: Some(0), stdout: right.into(), stderr: String::new() });
}
