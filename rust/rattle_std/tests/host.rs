//! Files, paths, names of errors and printing.
use rattle_std::alloc::Global;
use rattle_std::io::{BufReader, BufWriter, ErrorKind, is_kind};
use rattle_std::path::Path;
use rattle_std::rt::Files;
use rattle_std::{HostRuntime, String, Vec, fs};
use std::collections::BTreeSet;
use std::io::{BufRead, Read, Write};

/// A folder of this test's own.
fn folder(name: &str) -> std::path::PathBuf {
    let path = std::env::temp_dir().join(format!("rattle_std-{}-{name}", std::process::id()));
    std::fs::create_dir_all(&path).unwrap();
    path
}

#[test]
fn a_kind_is_known_by_its_name() {
    assert!(is_kind(ErrorKind::NotFound, "NotFound"));
    assert!(!is_kind(ErrorKind::NotFound, "Not"));
    assert!(!is_kind(ErrorKind::NotFound, "NotFoundAtAll"));
    // EBADF has no kind with a name
    assert!(is_kind(std::io::Error::from_raw_os_error(9).kind(), "Uncategorized") || cfg!(not(unix)));
}

#[test]
fn each_read_of_a_folder_gives_whole_names() {
    let folder = folder("names");
    let mut wanted = BTreeSet::new();
    for number in 0..50 {
        let name = format!("file-{number:03}");
        std::fs::write(folder.join(&name), b"").unwrap();
        wanted.insert(name.into_bytes());
    }
    let mut dir = HostRuntime.open_dir(folder.to_str().unwrap()).unwrap();
    let mut found = BTreeSet::new();
    // 9 bytes are a name and its end; 31 hold three of them and a part of a fourth
    let mut room = [0; 31];
    loop {
        let count = dir.read(&mut room).unwrap();
        assert_eq!(count % 9, 0);
        if count == 0 {
            break;
        }
        found.extend(room[..count - 1].split(|byte| *byte == 0).map(<[u8]>::to_vec));
    }
    assert_eq!(found, wanted);
    std::fs::remove_dir_all(folder).unwrap();
}

#[test]
fn a_file_is_written_read_renamed_and_removed() {
    let folder = folder("files");
    let (first, second) = (folder.join("first"), folder.join("second"));
    let (first, second) = (first.to_str().unwrap(), second.to_str().unwrap());
    fs::write(&HostRuntime, first, b"drive 8").unwrap();
    fs::rename(&HostRuntime, first, second).unwrap();
    assert_eq!(fs::read_to_string(&HostRuntime, second).unwrap().as_str(), "drive 8");
    assert_eq!(fs::metadata(&HostRuntime, first).unwrap_err().kind(), ErrorKind::NotFound);
    let refused = fs::OpenOptions::new().write(true).create_new(true).open(&HostRuntime, second);
    assert_eq!(refused.err().unwrap().kind(), ErrorKind::AlreadyExists);
    fs::remove_file(&HostRuntime, second).unwrap();
    assert!(fs::open(&HostRuntime, second).is_err());
    std::fs::remove_dir_all(folder).unwrap();
}

#[test]
fn a_text_that_is_none_is_refused() {
    let folder = folder("texts");
    let path = folder.join("bytes");
    std::fs::write(&path, [0xff]).unwrap();
    let refused = fs::read_to_string(&HostRuntime, path.to_str().unwrap());
    assert_eq!(refused.unwrap_err().kind(), ErrorKind::InvalidData);
    std::fs::remove_dir_all(folder).unwrap();
}

#[test]
fn paths_have_their_parts() {
    let path = Path::new("disks/game.d64");
    assert_eq!(path.file_name(), Some("game.d64"));
    assert_eq!((path.file_stem(), path.extension()), (Some("game"), Some("d64")));
    assert_eq!(path.parent(), Some(Path::new("disks")));
    assert_eq!(Path::new("game.d64").parent(), Some(Path::new("")));
    let joined = Path::new("disks").join(Global, "b.d64").unwrap();
    assert_eq!(joined.as_str(), format!("disks{}b.d64", std::path::MAIN_SEPARATOR));
}

#[test]
fn a_writer_with_room_passes_all_on() {
    let mut bytes = std::vec::Vec::new();
    let mut writer = BufWriter::new(Global, &mut bytes).unwrap();
    for number in 0..20_000u32 {
        writer.write_all(&[(number % 251) as u8]).unwrap();
    }
    writer.flush().unwrap();
    drop(writer);
    assert!((0..20_000u32).all(|number| bytes[number as usize] == (number % 251) as u8));
    let mut reader = BufReader::new(Global, bytes.as_slice()).unwrap();
    assert!(!reader.fill_buf().unwrap().is_empty());
    let mut back = std::vec::Vec::new();
    reader.read_to_end(&mut back).unwrap();
    assert_eq!(back, bytes);
}

#[test]
fn a_vector_takes_what_is_written() {
    let mut bytes = Vec::new(Global);
    write!(bytes, "{} {}", 18, 1).unwrap();
    assert_eq!(String::from_utf8(bytes).unwrap().as_str(), "18 1");
}
