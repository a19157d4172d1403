//! What an agent that may be promoted finds in its folders at a start.
use rignolda_machine::standby::Folders;
use rignoldactl::Standby as Role;
use rignoldad::place::LocalFiles;
use std::fs::{self, Permissions};
use std::os::unix::fs::PermissionsExt;

#[test]
fn what_is_wrong_with_the_mark_of_a_root_is_said_at_a_start() {
    let root = std::env::temp_dir().join(format!("rignolda-roles-{}", std::process::id()));
    let _ = fs::remove_dir_all(&root);
    fs::create_dir_all(root.join(".root")).unwrap();
    let [at, applied] = [root.clone(), root.join("applied")].map(|it| it.display().to_string());
    let folders = Folders { system: LocalFiles, sha: rignoldactl::sha256, root: at, applied };
    let mark = root.join(".root");
    let begun = |words: &str| {
        let begun = folders.begun();
        let said = begun.fact.map(|it| format!("{} {it}", it.kind()));
        assert_eq!(said, Some(format!("root {} {words}", mark.display())));
        (begun.role, begun.rank)
    };
    assert_eq!(begun("is no plain file: it stands by"), (Role::StandsBy, 0));
    fs::remove_dir(&mark).unwrap();
    fs::write(&mark, "no number\n").unwrap();
    fs::set_permissions(&mark, Permissions::from_mode(0o666)).unwrap();
    let others = "does not belong to the user of the agent alone: left out";
    assert_eq!(begun(others), (Role::Below, 0));
    fs::set_permissions(&mark, Permissions::from_mode(0o644)).unwrap();
    assert_eq!(begun("has no number: any other root goes on"), (Role::Looks, 0));
    fs::write(&mark, "7\n").unwrap();
    let begun = folders.begun();
    assert_eq!((begun.role, begun.rank, begun.fact), (Role::Looks, 7, None));
    // (what it may have published is above that, or not known)
    let published = root.join(".published");
    for (text, may) in [("9\n", Some(9)), ("6\n", None), ("9 x\n", None), ("", None)] {
        fs::write(&published, text).unwrap();
        assert_eq!(folders.begun().may, may, "{text}");
    }
    fs::remove_file(&published).unwrap();
    fs::create_dir(&published).unwrap();
    assert_eq!(folders.begun().may, None);
    fs::remove_dir_all(root).unwrap();
}
