//! The facade's calls. What they do below is tested with the crates; expected values are the rules of the drive.
use yellowadze1541::{Dos, Drive, Error, FileType, Format, Image, Lines, Settings};

fn disk() -> Image {
    Image::new(Format::D64, b"TEST", *b"AB").unwrap()
}

#[test]
fn a_new_disk_is_empty_and_sound() {
    for format in [Format::D64, Format::D64With40Tracks, Format::G64] {
        let image = Image::new(format, b"TEST", *b"AB").unwrap();
        assert_eq!(image.format(), format);
        assert_eq!(image.check(), Ok(Ok(())));
        assert_eq!(image.entries().unwrap().count(), 0);
        assert_eq!(&image.title().unwrap()[..5], b"TEST\xa0");
    }
    assert_eq!(disk().free_blocks(), Ok(664));
    assert_eq!(disk().as_bytes().len(), 174_848);
}

#[test]
fn a_file_is_written_read_and_scratched() {
    let mut image = disk();
    image.write(b"HELLO,P,W", &[1, 8, 65]).unwrap();
    let entry = image.entries().unwrap().next().unwrap();
    assert_eq!((entry.name(), entry.blocks(), entry.file_type()), (&b"HELLO"[..], 1, Some(FileType::Prg)));
    assert!(entry.is_closed() && !entry.is_locked());
    assert_eq!(image.read(b"H*"), Ok(vec![1, 8, 65]));
    assert_eq!(image.read_entry(&entry), Ok(vec![1, 8, 65]));
    image.command(b"S0:HELLO").unwrap();
    assert_eq!(image.read(b"HELLO"), Err(Error::NotFound));
    assert_eq!(image.free_blocks(), Ok(664));
}

#[test]
fn what_is_refused_changes_nothing() {
    let mut image = disk();
    image.write(b"HELLO,P,W", b"x").unwrap();
    let before = image.clone();
    // 63: the file exists
    match image.write(b"HELLO,P,W", b"y") {
        Err(Error::Refused(status)) => assert_eq!(status.code.number(), 63),
        other => panic!("{other:?}"),
    }
    assert_eq!(image, before);
    assert_eq!(Image::from_bytes(vec![0; 100]).unwrap_err().to_string().is_empty(), false);
}

#[test]
fn an_image_converts_and_comes_back() {
    let mut image = disk();
    image.write(b"HELLO,S,W", &[7; 1000]).unwrap();
    let g64 = image.convert().unwrap();
    assert!(g64.is_whole && g64.image.format() == Format::G64);
    assert_eq!(g64.image.convert().unwrap().image, image);
}

#[test]
fn the_dos_opens_reads_and_writes() {
    let mut dos = Dos::new(&disk()).unwrap();
    assert_eq!(dos.status().code.number(), 73);
    dos.open(2, b"NAME,S,W").unwrap();
    dos.write(2, b"bytes").unwrap();
    dos.close(2).unwrap();
    dos.open(3, b"NAME,S,R").unwrap();
    assert_eq!(dos.read(3, 100), Ok(b"bytes".to_vec()));
    dos.close(3).unwrap();
    // 62: no such file
    assert!(matches!(dos.open(4, b"NONE,S,R"), Err(Error::Refused(status)) if status.code.number() == 62));
    assert_eq!(dos.open(16, b""), Err(Error::Invalid));
    assert_eq!(dos.image().unwrap().read(b"NAME"), Ok(b"bytes".to_vec()));
}

#[test]
fn a_drive_answers_attention_with_data() {
    let image = disk();
    let mut drive = Drive::new(&image, Settings::default()).unwrap();
    assert_eq!((drive.next_due(), drive.status(), drive.writes()), (None, 73, 0));
    drive.lines(1000, Lines { atn_low: true, ..Lines::FREE }).unwrap();
    assert_eq!(drive.next_due(), Some(1020));
    // (a change after what is due is refused)
    assert_eq!(drive.lines(3000, Lines::FREE), Err(Error::Invalid));
    let reactions: Vec<_> = drive.reactions_until(1020).collect();
    assert_eq!((reactions.len(), reactions[0].moment, reactions[0].now.data_low), (1, 1020, true));
    assert!(drive.holds().data_low);
    assert_eq!(drive.image().unwrap(), image);
    assert!(Drive::new(&image, Settings { device: 7, ..Settings::default() }).is_err());
}
