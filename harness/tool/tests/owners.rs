//! Owners, groups, permissions and attributes of stores that several users share.

mod common;
use common::{draft_of, letters, Bench, Run, TOOL};
use std::ffi::{c_char, c_int, c_void, CString};
use std::fs::{self, Permissions};
use std::io;
use std::os::unix::ffi::OsStrExt;
use std::os::unix::fs::{chown, MetadataExt, PermissionsExt};
use std::os::unix::process::CommandExt;
use std::path::{Path, PathBuf};
use std::process::{Command, Stdio};

extern "C" {
    fn geteuid() -> u32;
    fn setgroups(number: usize, groups: *const u32) -> c_int;
    fn setgid(group: u32) -> c_int;
    fn setuid(user: u32) -> c_int;
    fn setxattr(path: *const c_char, name: *const c_char, value: *const c_void, size: usize, flags: c_int) -> c_int;
    fn getxattr(path: *const c_char, name: *const c_char, value: *mut c_void, size: usize) -> isize;
}

const ALICE: u32 = 61_001;
const BOB: u32 = 61_002;
const SHOP: u32 = 62_001;
const OTHERS: u32 = 62_002;

/// A folder that the group may write, with a store of Bob's in it and the tool beside it.
struct Shop(PathBuf);

impl Shop {
    /// None if this is not run by root: only root can play several users.
    fn new(name: &str) -> Option<Shop> {
        // SAFETY: it asks for a number.
        if unsafe { geteuid() } != 0 {
            println!("skipped: only root can play several users");
            return None;
        }
        let folder = std::env::temp_dir().join(format!("lurdempos-{name}-{}", std::process::id()));
        let _ = fs::remove_dir_all(&folder);
        fs::create_dir(&folder).unwrap();
        fs::copy(TOOL, folder.join("tool")).unwrap();
        let shop = Shop(folder);
        if shop.command(ALICE, "--version").output().is_err_and(|error| error.kind() == io::ErrorKind::PermissionDenied)
        {
            println!("skipped: programs cannot be run in the folder for temporary files");
            return None;
        }
        shop.run(0, "init s --tills 2 --versions 4 --blocks 16 --records 8 --cells 64").accepted();
        fs::write(shop.path("image"), letters("AB")).unwrap();
        shop.give("s", BOB, SHOP, 0o660);
        shop.give("image", BOB, SHOP, 0o644);
        shop.give("", 0, SHOP, 0o770);
        Some(shop)
    }

    fn path(&self, name: &str) -> PathBuf {
        self.0.join(name)
    }

    fn give(&self, name: &str, user: u32, group: u32, mode: u32) {
        chown(self.path(name), Some(user), Some(group)).unwrap();
        fs::set_permissions(self.path(name), Permissions::from_mode(mode)).unwrap();
    }

    /// Runs the tool as this user, whose own group has the same number, and who is one of the shop's.
    fn run(&self, user: u32, line: &str) -> Run {
        // A child that another test is just starting may still have the copy of the tool open for writing.
        let output = loop {
            match self.command(user, line).output() {
                Err(error) if error.kind() == io::ErrorKind::ExecutableFileBusy => continue,
                output => break output.unwrap(),
            }
        };
        Run::of(line, output)
    }

    fn command(&self, user: u32, line: &str) -> Command {
        let mut command = Command::new(self.path("tool"));
        command.args(line.split_whitespace()).current_dir(&self.0).stdin(Stdio::null());
        if user != 0 {
            let become_user = move || {
                // SAFETY: one number is lent for reading.
                let done = unsafe { [setgroups(1, &SHOP), setgid(user), setuid(user)] };
                if done == [0; 3] {
                    Ok(())
                } else {
                    Err(io::Error::last_os_error())
                }
            };
            // SAFETY: these three calls may be made between a fork and the start of a program.
            unsafe { command.pre_exec(become_user) };
        }
        command
    }

    /// Owner, group and permissions.
    fn state(&self, name: &str) -> (u32, u32, u32) {
        let found = fs::metadata(self.path(name)).unwrap();
        (found.uid(), found.gid(), found.mode() & 0o7777)
    }

    fn names(&self) -> Vec<String> {
        let entries = fs::read_dir(&self.0).unwrap();
        let mut names: Vec<String> = entries.map(|entry| entry.unwrap().file_name().into_string().unwrap()).collect();
        names.sort();
        names
    }
}

impl Drop for Shop {
    fn drop(&mut self) {
        let _ = fs::remove_dir_all(&self.0);
    }
}

#[test]
fn a_shared_store_keeps_its_group() {
    let Some(shop) = Shop::new("group") else { return };
    shop.run(ALICE, "backup s 0 image").accepted();
    // The owner is whoever writes, unless root does; the group and the permissions stay.
    assert_eq!(shop.state("s"), (ALICE, SHOP, 0o660));
    shop.run(BOB, "backup s 0 image").accepted();
    assert_eq!(shop.state("s"), (BOB, SHOP, 0o660));
    shop.run(0, "retire s 0 1").accepted();
    assert_eq!(shop.state("s"), (BOB, SHOP, 0o660));
    shop.run(ALICE, "restore s 0 2 out").accepted();
    assert_eq!(shop.state("out"), (ALICE, ALICE, 0o660));
    shop.run(ALICE, "grow s larger").accepted();
    assert_eq!(shop.state("larger"), (ALICE, SHOP, 0o660));
}

#[test]
fn a_group_that_cannot_be_kept() {
    let Some(shop) = Shop::new("lost-group") else { return };
    shop.give("s", BOB, OTHERS, 0o666);
    let before = fs::read(shop.path("s")).unwrap();
    let run = shop.run(ALICE, "backup s 0 image");
    run.fails(3, &["s: could not be written, and was not altered: its group 62002 cannot be kept", "What to do: "]);
    shop.run(ALICE, "grow s larger").fails(3, &["larger: could not be written", "its group 62002 cannot be kept"]);
    assert_eq!((shop.state("s"), fs::read(shop.path("s")).unwrap()), ((BOB, OTHERS, 0o666), before));
    assert_eq!(shop.names(), ["image", "s", "tool"]);
}

#[test]
fn a_draft_of_another_user_is_named() {
    let Some(shop) = Shop::new("draft") else { return };
    let draft = draft_of("s");
    fs::write(shop.path(&draft), "half").unwrap();
    shop.give(&draft, ALICE, ALICE, 0o600);
    let run = shop.run(BOB, "backup s 0 image");
    run.fails(3, &["Permission denied", &format!("{draft} of user 61001 is in the way"), &format!("{draft}`")]);
    shop.run(ALICE, "backup s 0 image").accepted();
    assert_eq!(shop.names(), ["image", "s", "tool"]);
    // One that the other may open, as every draft of a group's store, hinders nobody.
    fs::write(shop.path(&draft), "half").unwrap();
    shop.give(&draft, ALICE, SHOP, 0o660);
    shop.run(BOB, "backup s 0 image").accepted();
    assert_eq!(shop.names(), ["image", "s", "tool"]);
}

/// A draft has the store's group and mode before there is a byte in it, so that one that is left hinders nobody of the
/// group.
#[test]
fn the_draft_of_a_killed_run_hinders_nobody() {
    let Some(shop) = Shop::new("killed") else { return };
    shop.run(0, "init large").accepted();
    shop.give("large", BOB, SHOP, 0o660);
    let drafts = || shop.names().into_iter().filter(|name| name.starts_with("large.")).collect::<Vec<String>>();
    let begun = |name: &String| fs::metadata(shop.path(name)).is_ok_and(|draft| draft.len() > 0);
    // A run may come to its end before it is seen to write.
    let killed = (0..50).any(|_| {
        let mut child = shop.command(ALICE, "backup large 0 image").stdout(Stdio::null()).spawn().unwrap();
        while !drafts().iter().any(begun) && child.try_wait().unwrap().is_none() {}
        let _ = child.kill();
        child.wait().unwrap();
        !drafts().is_empty()
    });
    assert!(killed, "no run left a draft");
    shop.run(BOB, "backup large 0 image").accepted();
    assert_eq!(shop.names(), ["image", "large", "s", "tool"]);
}

/// Users of one group at the same time: all of their backups are kept.
#[test]
fn two_users_at_once() {
    let Some(shop) = Shop::new("at-once") else { return };
    std::thread::scope(|scope| {
        for user in [ALICE, BOB, ALICE, BOB] {
            let shop = &shop;
            scope.spawn(move || {
                for _ in 0..10 {
                    shop.run(user, "backup s 0 image --rotate --wait 60").accepted();
                }
            });
        }
    });
    shop.run(ALICE, "list s 0").accepted().says("versions 37 to 40");
    assert_eq!(shop.names(), ["image", "s", "tool"]);
}

#[test]
fn folders_without_access_are_named() {
    let Some(shop) = Shop::new("folders") else { return };
    fs::create_dir(shop.path("closed")).unwrap();
    fs::copy(shop.path("s"), shop.path("closed/s")).unwrap();
    fs::set_permissions(shop.path("closed"), Permissions::from_mode(0o700)).unwrap();
    for line in ["check closed/s", "backup closed/s 0 image", "backup s 0 closed/s", "init closed/new"] {
        shop.run(ALICE, line).fails(3, &["Permission denied", "the folder closed is closed to this user"]);
    }
    shop.run(ALICE, "backup s 0 image").accepted();
    shop.run(ALICE, "restore s 0 1 closed/out").fails(3, &["the folder closed is closed to this user"]);
    shop.give("", 0, SHOP, 0o550);
    let folder = fs::canonicalize(shop.path("")).unwrap();
    let words = format!("the folder {} may not be written by this user", folder.display());
    for line in ["backup s 0 image", "init new", "restore s 0 1 new", "export-all s new", "salvage s new", "grow s new"]
    {
        shop.run(ALICE, line).fails(3, &["Permission denied", &words]);
    }
    shop.run(ALICE, "list s").accepted();
    // In a folder with the sticky bit nobody replaces what another user has.
    shop.give("", 0, SHOP, 0o1770);
    let words = format!("the folder {} has the sticky bit", folder.display());
    shop.run(BOB, "backup s 0 image").fails(3, &["s: could not be written, and was not altered", &words]);
    shop.run(ALICE, "backup s 0 image").accepted();
    assert_eq!(shop.names(), ["closed", "image", "s", "tool"]);
}

/// Another store on the disk has to be one that this user may read, and no more.
#[test]
fn stores_of_others_on_the_disk() {
    let Some(shop) = Shop::new("owners-disk") else { return };
    shop.run(0, "init t --tills 1 --blocks 16 --records 8 --cells 64").accepted();
    shop.give("t", BOB, OTHERS, 0o644);
    let before = fs::metadata(shop.path("t")).unwrap();
    shop.run(ALICE, "backup t 0 image --with s").fails(3, &["t: cannot be changed"]);
    shop.run(ALICE, "backup s 0 image --with t --limit 1").fails(1, &["refused, 21: "]);
    shop.run(ALICE, "backup s 0 image --with t --limit 2").accepted();
    shop.run(ALICE, "chain s t").accepted();
    shop.give("t", BOB, OTHERS, 0o640);
    for line in ["backup s 0 image --with t", "list s --with t", "chain s t"] {
        shop.run(ALICE, line).fails(3, &["t: cannot be read", "ask its owner for access to the file"]);
    }
    let after = fs::metadata(shop.path("t")).unwrap();
    assert_eq!((before.ino(), before.mtime_nsec()), (after.ino(), after.mtime_nsec()));
    assert_eq!(shop.names(), ["image", "s", "t", "tool"], "no draft is left");
}

/// What a user may not write is not replaced in a folder that the user may write.
#[test]
fn outputs_that_a_user_may_not_write() {
    let Some(shop) = Shop::new("outputs") else { return };
    shop.run(ALICE, "backup s 0 image").accepted();
    fs::write(shop.path("bobs"), "Bob's").unwrap();
    shop.give("bobs", BOB, BOB, 0o644);
    shop.run(ALICE, "restore s 0 1 bobs").fails(2, &["bobs is write-protected; it was not altered", "--force"]);
    assert_eq!(fs::read(shop.path("bobs")).unwrap(), b"Bob's");
    shop.run(ALICE, "restore s 0 1 bobs --force").fails(3, &["its group 61002 cannot be kept"]);
}

fn attribute(path: &Path, name: &str) -> Option<Vec<u8>> {
    let (path, name) = (CString::new(path.as_os_str().as_bytes()).unwrap(), CString::new(name).unwrap());
    let mut value = [0; 512];
    // SAFETY: both names end with zero, and the value has as many bytes as said.
    let size = unsafe { getxattr(path.as_ptr(), name.as_ptr(), value.as_mut_ptr().cast(), value.len()) };
    usize::try_from(size).ok().map(|size| value[..size].to_vec())
}

/// False where the file system has no such attributes.
fn set_attribute(path: &Path, name: &str, value: &[u8]) -> bool {
    let (path, name) = (CString::new(path.as_os_str().as_bytes()).unwrap(), CString::new(name).unwrap());
    // SAFETY: both names end with zero, and the value is a slice.
    unsafe { setxattr(path.as_ptr(), name.as_ptr(), value.as_ptr().cast(), value.len(), 0) == 0 }
}

/// An access list with the rights of the owner, of Bob, of the group, at most, and of others, as the system keeps it.
fn access_list(rights: [u16; 5]) -> Vec<u8> {
    let entries = [(1u16, u32::MAX), (2, BOB), (4, u32::MAX), (16, u32::MAX), (32, u32::MAX)];
    let mut list = 2u32.to_le_bytes().to_vec();
    for ((tag, who), rights) in entries.into_iter().zip(rights) {
        list.extend(tag.to_le_bytes().into_iter().chain(rights.to_le_bytes()).chain(who.to_le_bytes()));
    }
    list
}

#[test]
fn attributes_and_access_lists_stay() {
    let bench = Bench::with_store("attributes");
    bench.write("image", "x");
    bench.write("out", "old");
    let list = access_list([6, 6, 4, 6, 0]);
    for name in ["s", "out"] {
        let path = bench.path(name);
        if !set_attribute(&path, "user.note", b"of the counter") {
            println!("skipped: no such attributes in {}", path.display());
            return;
        }
        let has_lists = set_attribute(&path, "system.posix_acl_access", &list);
        for line in ["backup s 0 image", "restore s 0 1 out"] {
            bench.run(line).accepted();
        }
        assert_eq!(attribute(&path, "user.note").as_deref(), Some(&b"of the counter"[..]), "{name}");
        if has_lists {
            assert_eq!(attribute(&path, "system.posix_acl_access"), Some(list.clone()), "{name}");
            assert_eq!(bench.mode(name), 0o660, "{name}");
        }
    }
}

/// A folder can give new files an access list; a store that has none gets none from it.
#[test]
fn no_access_list_from_the_folder() {
    let bench = Bench::with_store("folder-list");
    bench.write("image", "x");
    fs::set_permissions(bench.path("s"), Permissions::from_mode(0o600)).unwrap();
    let list = access_list([7, 7, 7, 7, 0]);
    if !set_attribute(&bench.path(""), "system.posix_acl_default", &list) {
        println!("skipped: no such lists here");
        return;
    }
    bench.run("backup s 0 image").accepted();
    assert_eq!((attribute(&bench.path("s"), "system.posix_acl_access"), bench.mode("s")), (None, 0o600));
}
