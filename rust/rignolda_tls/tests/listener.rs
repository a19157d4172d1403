//! Where a Unix socket is to be: what lies there is somebody's, and kept.
use rignolda_machine::net::Address;
use rignolda_tls::Listener;
use std::fs::{self, Permissions};
use std::os::unix::fs::{symlink, MetadataExt, PermissionsExt};
use std::path::Path;
use std::process::Command;

/// Makes something at a path.
type Make = fn(&Path);

#[test]
fn what_lies_where_a_socket_is_to_be_is_moved_aside_and_kept() {
    let home = std::env::temp_dir().join(format!("rignolda-listens-{}", std::process::id()));
    let _ = fs::remove_dir_all(&home);
    let makes: [(&str, Make); 4] = [
        ("file", |it| fs::write(it, "mine").unwrap()),
        ("link", |it| symlink("elsewhere", it).unwrap()),
        ("pipe", |it| assert!(Command::new("mkfifo").arg(it).status().unwrap().success())),
        ("folder", |it| fs::create_dir_all(it.join("full")).unwrap()),
    ];
    for (kind, make) in makes {
        for is_own in [false, true] {
            let around = home.join(format!("{kind}{is_own}"));
            let [path, aside] = ["control", "control.aside1"].map(|it| around.join(it));
            fs::create_dir_all(&around).unwrap();
            let mode = if is_own { 0o755 } else { 0o777 };
            fs::set_permissions(&around, Permissions::from_mode(mode)).unwrap();
            make(&path);
            let which = |it: &Path| fs::symlink_metadata(it).map(|it| (it.dev(), it.ino())).ok();
            let was = which(&path);
            let made = Listener::new(&Address::Unix(path.display().to_string()), Some(0o660));
            match made {
                Ok(it) => {
                    assert!(is_own && it.is_in_place(), "{kind}");
                    assert_eq!((it.moved(), which(&aside)), (Some(&*aside), was), "{kind}");
                }
                Err(why) => {
                    let why = why.to_string();
                    let says = "the folder around it is not the agent's own";
                    assert!(!is_own && why.contains(says), "{kind}: {why}");
                    assert_eq!((which(&path), which(&aside)), (was, None), "{kind}");
                }
            }
        }
    }
    assert_eq!(fs::read(home.join("filetrue/control.aside1")).unwrap(), b"mine");
    fs::remove_dir_all(home).unwrap();
}
