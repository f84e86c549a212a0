//! The luz grammar's image is document 01's, byte for byte.

mod support;

use support::{run, sample_path, scratch};

/// A block from its bytes up to the last that is not 0, and its check.
fn block(bytes: &[u8], check: [u8; 2]) -> Vec<u8> {
    let mut block = bytes.to_vec();
    block.resize(510, 0);
    block.extend(check);
    block
}

/// Written out by hand from document 01's "Blocks" and "The luz grammar".
fn expected() -> Vec<u8> {
    #[rustfmt::skip]
    let blocks = [
        // Form 1; 9 letters, 8 pairs, 1 rule, 2 lexicons, 4 entries.
        block(&[0, 0, 1, 1,  1, 0,  9, 0,  8, 0,  1, 0,  2, 0,  4, 0], [245, 0]),
        block(&[1, 0, 2, 9,  b'#', 0,  b'+', 0,  b'c', 0,  b'e', 0,  b'l', 0,  b's', 0,  b'u', 0,  b'z', 0,  b'Z', 0], [72, 46]),
        block(&[2, 0, 3, 8,  2, 0,  3, 3,  4, 4,  5, 5,  6, 6,  7, 7,  9, 3,  9, 8], [183, 4]),
        block(&[3, 0, 4, 1,  5, 5,
            9, 3,  9, 8,  2, 0,  4, 4,  255, 255,
            1, 1, 1, 1, 0,
            3, 2, 1, 1, 1,
            3, 2, 4, 1, 1,
            0, 0, 5, 0, 0,
            3, 2, 1, 0, 1,
            0, 0, 0, 1, 0], [199, 36]),
        block(&[4, 0, 5, 2,  2, 0,  2, 0], [52, 0]),
        block(&[5, 0, 6, 4,
            3,  5, 7, 9, 0, 0, 0, 0, 0, 0, 0, 0, 0,  1,    0, 0,
            3,  5, 7, 3, 0, 0, 0, 0, 0, 0, 0, 0, 0,  1,    1, 0,
            0,  0, 0, 0, 0, 0, 0, 0, 0, 0, 0, 0, 0,  255,  2, 0,
            3,  2, 4, 6, 0, 0, 0, 0, 0, 0, 0, 0, 0,  255,  3, 0], [173, 122]),
    ];
    blocks.concat()
}

#[test]
fn the_image_of_luz_is_as_written_by_hand() {
    let folder = scratch("luz");
    let ran = run(&folder, &["assemble".as_ref(), sample_path("luz").as_os_str(), "luz.img".as_ref()]);
    assert_eq!((ran.code, ran.stdout.as_str(), ran.stderr.as_str()), (Some(0), "", ""));
    let image = std::fs::read(folder.join("luz.img")).unwrap();
    assert_eq!(image.len(), 6 * 512);
    for (number, (found, right)) in image.chunks(512).zip(expected().chunks(512)).enumerate() {
        assert_eq!(found, right, "block {number}");
    }
}
